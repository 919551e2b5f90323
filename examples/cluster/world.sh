# Read by `. world.sh`: runs a program in namespaces of its own, if they are available, and appends `yes` or `no` to its arguments
# accordingly. What runs there can reach nothing else, and ends with the program. Use: in_world COMMAND..
# shellcheck shell=sh
export PYTHONDONTWRITEBYTECODE=1
world="unshare --net --pid --fork --kill-child --mount-proc"
[ "$(id -u)" = 0 ] || world="$world --map-root-user"

in_world() {
    if [ "${NAMESPACES:-yes}" = yes ] && $world ip link add hub type bridge 2> /dev/null; then
        $world "$@" yes
    else
        "$@" no
    fi
}
