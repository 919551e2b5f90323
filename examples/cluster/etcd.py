"""The part of etcd that the manager needs, through its JSON gateway: one view of all keys, transactions, leases."""
import base64
import http.client
import json
import time
from typing import NamedTuple
from urllib.parse import urlsplit


class Unreachable(Exception):
    """No member answered in time. The request may have been carried out all the same."""


class Item(NamedTuple):
    value: str
    revision: int  # of the last change


def text(word):
    return base64.b64encode(word.encode()).decode()


def plain(coded):
    return base64.b64decode(coded).decode()


def absent(key):
    """A comparison: there is no such key."""
    return {"target": "VERSION", "key": text(key), "result": "EQUAL", "version": "0"}


def unchanged(key, item):
    """A comparison: the key is still this item."""
    return {"target": "MOD", "key": text(key), "result": "EQUAL", "modRevision": str(item.revision)}


def put(key, value, lease=0):
    return {"requestPut": {"key": text(key), "value": text(value), "lease": str(lease)}}


def delete(key):
    return {"requestDeleteRange": {"key": text(key)}}


def now():
    """The monotonic clock that also counts while the machine sleeps, as the time of a lease does."""
    return time.clock_gettime(time.CLOCK_BOOTTIME)


class Etcd:
    def __init__(self, urls, seconds=1.5):
        self.members = [urlsplit(url).netloc for url in urls]
        self.seconds = seconds  # seconds that a call takes at most, over all members
        self.until = float("inf")  # the moment after which no call may be waited for

    def call(self, path, body):
        """The answer of the first member that gives one; the next call asks that member first."""
        end = min(now() + self.seconds, self.until)
        for member in list(self.members):
            left = min(end - now(), self.seconds / 2)
            if left <= 0:
                break
            try:
                connection = http.client.HTTPConnection(member, timeout=left)
                connection.request("POST", path, json.dumps(body))
                connection.sock.settimeout(max(end - now(), 0.01))
                answer = connection.getresponse()
                found = json.loads(answer.read())
                connection.close()
                if answer.status == 200 and "error" not in found:
                    return found
            except (OSError, http.client.HTTPException, ValueError):
                pass
            self.members.remove(member)
            self.members.append(member)
        raise Unreachable(path)

    def view(self):
        """All keys, as of one revision."""
        found = self.call("/v3/kv/range", {"key": text("/"), "range_end": text("0")}).get("kvs", [])
        return {plain(kv["key"]): Item(plain(kv.get("value", "")), int(kv["mod_revision"])) for kv in found}

    def change(self, comparisons, changes):
        """Makes the changes in one transaction if the comparisons hold. Returns whether they did."""
        return self.call("/v3/kv/txn", {"compare": comparisons, "success": changes}).get("succeeded", False)

    def grant(self, seconds):
        """A new lease."""
        return int(self.call("/v3/lease/grant", {"TTL": str(seconds)})["ID"])

    def keep_alive(self, lease):
        """Renews the lease. Returns whether it still existed."""
        return int(self.call("/v3/lease/keepalive", {"ID": str(lease)})["result"].get("TTL", 0)) > 0

    def revoke(self, lease):
        self.call("/v3/lease/revoke", {"ID": str(lease)})
