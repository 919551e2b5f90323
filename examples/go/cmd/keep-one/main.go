// Command keep-one keeps one resource running through ocfexec: it probes it, starts it if it does not run, monitors it, restarts it when a
// monitor fails, and opens the journal again when the executor has ended.
//
//	keep-one [-interval 10s] [-timeout 20s] [-patience 30s] web heartbeat:nginx configfile=/etc/nginx/nginx.conf -- \
//		ocfexec serve --journal /var/lib/ocfexec --meta-variables
//
// SIGTERM and SIGINT stop the resource, and end the program.
package main

import (
	"context"
	"errors"
	"flag"
	"fmt"
	"log"
	"os"
	"os/exec"
	"os/signal"
	"strings"
	"syscall"
	"time"

	"ocfexec"
)

const (
	notRunning = 7
	degraded   = 190
	longest    = time.Minute // of all pauses
)

type keeper struct {
	*ocfexec.Executor
	id, agent string
	params    map[string]string
	interval  time.Duration
	timeout   time.Duration
	pause     time.Duration
}

// rest waits before the next try, longer each time.
func (k *keeper) rest(ctx context.Context) {
	if k.pause = 2*k.pause + time.Second; k.pause > longest {
		k.pause = longest
	}
	select {
	case <-time.After(k.pause):
	case <-ctx.Done():
	}
}

// ask sends a command about the resource.
func ask[T any](ctx context.Context, k *keeper, op string, command ocfexec.Command) (T, error) {
	command["op"], command["id"] = op, k.id
	return ocfexec.Ask[T](ctx, k.Executor, command)
}

// perform runs an action, and says what came of it.
func (k *keeper) perform(ctx context.Context, action string, expect int) (ocfexec.Result, error) {
	command := ocfexec.Command{"op": "exec", "id": k.id, "action": action, "expect": expect, "timeout": k.timeout.Milliseconds()}
	result, err := k.Perform(ctx, command)
	if err == nil {
		log.Printf("%s: %s was %s, with %d (%s)", k.id, action, result.Outcome, result.Code, result.Name)
	}
	return result, err
}

// keep brings the resource up, and restarts it when a monitor fails. It returns only an error.
func (k *keeper) keep(ctx context.Context) error {
	provider, kind, _ := strings.Cut(k.agent, ":")
	_, err := ask[any](ctx, k, "register", ocfexec.Command{"provider": provider, "type": kind, "params": k.params})
	if isRefusedAs(err, "exists") {
		_, err = ask[any](ctx, k, "params", ocfexec.Command{"params": k.params})
	}
	if err != nil {
		return err
	}
	last, err := k.perform(ctx, "monitor", notRunning)
	for err == nil {
		if last.Code == 0 || last.Code == degraded {
			last, err = k.watch(ctx, last)
		} else {
			last, err = k.start(ctx, last)
		}
	}
	return err
}

// start starts the resource, after a stop unless it is known not to run. After a stop that failed it is not started.
func (k *keeper) start(ctx context.Context, last ocfexec.Result) (ocfexec.Result, error) {
	if last.Action != "monitor" || last.Code != notRunning {
		k.rest(ctx)
		stopped, err := k.perform(ctx, "stop", 0)
		if err != nil || *stopped.Failed {
			return stopped, err
		}
	}
	return k.perform(ctx, "start", 0)
}

// watch waits until a monitor fails, and returns its result. Monitors of runs before the resource came up say nothing.
func (k *keeper) watch(ctx context.Context, up ocfexec.Result) (ocfexec.Result, error) {
	monitor := ocfexec.Command{"interval": k.interval.Milliseconds(), "timeout": k.timeout.Milliseconds()}
	_, err := ask[any](ctx, k, "recur", monitor)
	if err != nil && !isRefusedAs(err, "exists") {
		return up, err
	}
	for {
		result, err := k.Next(ctx)
		if err != nil {
			return result, err
		}
		if result.ID != k.id || result.Interval == 0 || result.Run <= up.Run || result.Failed == nil {
			continue
		}
		if *result.Failed {
			log.Printf("%s does not run: its monitor was %s, with %d (%s)", k.id, result.Outcome, result.Code, result.Name)
			return result, nil
		}
		k.pause = 0
	}
}

// stop stops the resource, and lets the executor leave.
func (k *keeper) stop(ctx context.Context) error {
	info, err := ask[struct{ Recurring []struct{ Interval int64 } }](ctx, k, "info", ocfexec.Command{})
	if err != nil {
		return err
	}
	for _, monitor := range info.Recurring {
		if _, err := ask[any](ctx, k, "cancel", ocfexec.Command{"interval": monitor.Interval}); err != nil {
			return err
		}
	}
	result, err := k.perform(ctx, "stop", 0)
	if err == nil && *result.Failed {
		err = fmt.Errorf("%s could not be stopped", k.id)
	}
	if err == nil {
		_, err = k.Leave(ctx)
	}
	return err
}

// over starts the executor whenever it has ended, and does this, until that ends in another way.
func (k *keeper) over(ctx context.Context, does func(context.Context) error) error {
	for {
		_, err := k.Start(ctx)
		if err == nil || errors.Is(err, ocfexec.ErrRunning) {
			err = does(ctx)
		}
		var ended *ocfexec.Ended
		isEnded := errors.As(err, &ended)
		switch {
		case ctx.Err() != nil, err == nil, isEnded && needsAdministrator(ended), errors.As(err, new(*ocfexec.Refused)):
			return err
		case errors.Is(err, exec.ErrNotFound), errors.Is(err, os.ErrNotExist), errors.Is(err, os.ErrPermission):
			return err
		}
		log.Print(err)
		k.rest(ctx)
	}
}

// needsAdministrator tells whether another start would end in the same way.
func needsAdministrator(ended *ocfexec.Ended) bool {
	return ended.Status == 2 || ended.Status == 3 || ended.Status == 6 || ended.Status == 8
}

func isRefusedAs(err error, word string) bool {
	var refused *ocfexec.Refused
	return errors.As(err, &refused) && refused.Word == word
}

func status(err error) int {
	var ended *ocfexec.Ended
	switch {
	case err == nil:
		return 0
	case errors.As(err, &ended) && needsAdministrator(ended):
		return ended.Status
	}
	return 1
}

func main() {
	log.SetFlags(0)
	log.SetPrefix("keep-one: ")
	interval := flag.Duration("interval", 10*time.Second, "how often it is monitored")
	timeout := flag.Duration("timeout", 20*time.Second, "how long each action may take")
	patience := flag.Duration("patience", 30*time.Second, "how long an answer of the executor is waited for")
	flag.Parse()
	words, command, isFound := strings.Cut(strings.Join(flag.Args(), "\x00"), "\x00--\x00")
	names := strings.Split(words, "\x00")
	if !isFound || len(names) < 2 {
		log.Fatal("use: keep-one [OPTIONS] ID PROVIDER:TYPE [NAME=VALUE..] -- COMMAND..")
	}
	params := map[string]string{}
	for _, word := range names[2:] {
		name, value, _ := strings.Cut(word, "=")
		params[name] = value
	}
	executor := ocfexec.New(strings.Split(command, "\x00"), ocfexec.Options{Patience: *patience})
	k := &keeper{Executor: executor, id: names[0], agent: names[1], params: params, interval: *interval, timeout: *timeout}
	ctx, _ := signal.NotifyContext(context.Background(), syscall.SIGTERM, syscall.SIGINT)
	err := k.over(ctx, k.keep)
	if ctx.Err() != nil {
		err = k.over(context.Background(), k.stop)
	}
	if err != nil {
		log.Print(err)
	}
	os.Exit(status(err))
}
