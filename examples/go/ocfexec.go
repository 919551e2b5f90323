// Package ocfexec drives `ocfexec serve`: it sends commands, and delivers each result once, even if the program was killed and
// started again. All calls may be used by several goroutines. It needs Linux.
//
//	executor := ocfexec.New([]string{"ocfexec", "serve", "--journal", "/var/lib/ocfexec"}, ocfexec.Options{Patience: time.Minute})
//	ready, err := executor.Start(ctx)
//	_, err = ocfexec.Ask[any](ctx, executor, ocfexec.Command{"op": "register", "id": "web", "provider": "heartbeat", "type": "nginx"})
//	result, err := executor.Perform(ctx, ocfexec.Command{"op": "exec", "id": "web", "action": "start", "timeout": 60000})
//	if errors.As(err, new(*ocfexec.Ended)) {
//		ready, err = executor.Start(ctx) // opens the journal again, which has the outcome
//		result, err = executor.Next(ctx)
//	}
package ocfexec

import (
	"context"
	"errors"
	"fmt"
	"log"
	"sync"
	"time"
)

// Executor is started, sent commands, ended, and started again after it ended. All output of its program is read at once, and kept until it
// is taken.
type Executor struct {
	commandLine []string
	options     Options

	mutex    sync.Mutex    // of all that follows, and of the program
	changed  chan struct{} // closed, and replaced, at each change
	program  *program      // that was started last
	journal  *journal
	arriving []Result      // during an opening: they follow what its histories have
	results  []Result      // that have come and were not taken yet, oldest first
	awaited  map[int64]int // how often the results of a call are waited for
}

// Options are how a program is driven. Its functions are called under a lock, and do not call the Executor; by default they log.
type Options struct {
	// Patience is how long an answer of the program is waited for. One that does not answer is killed. 0 is for ever.
	Patience time.Duration
	// OnNewJournal is told in a sentence that an opening finds another journal than the one before, or an older copy, before any of its
	// results is delivered: calls and runs are then counted anew, and calls of before have no results.
	OnNewJournal func(difference string)
	// OnTrouble is told by a word, such as "full", that a turn could not be made. The program repeats it by itself.
	OnTrouble func(word string)
}

// New is an executor that Start starts.
func New(commandLine []string, options Options) *Executor {
	if options.OnNewJournal == nil {
		options.OnNewJournal = func(difference string) { log.Print(difference) }
	}
	if options.OnTrouble == nil {
		options.OnTrouble = func(word string) { log.Print("the executor could not make a turn: ", word) }
	}
	return &Executor{commandLine: commandLine, options: options, changed: make(chan struct{}), awaited: map[int64]int{},
		journal: &journal{delivered: map[string]int64{}}}
}

// Start starts the program, also again after it ended, and waits until it has opened the journal, has reported, and is ready; if the context
// ends before, the next Start goes on waiting. Results that the previous program had recorded and could not send are delivered, too.
func (e *Executor) Start(ctx context.Context) (ready Ready, err error) {
	if err = e.begin(); err != nil {
		return
	}
	err = e.await(ctx, "the ready line", func(p *program) bool {
		if p.isOpen {
			ready = *p.ready
		}
		return p.isOpen
	})
	return
}

// begin starts a program, unless one runs that has not opened its journal yet.
func (e *Executor) begin() error {
	e.mutex.Lock()
	defer e.mutex.Unlock()
	if e.program != nil && e.program.isOpen {
		return ErrRunning
	} else if e.program != nil && e.program.err == nil {
		return nil
	}
	p, err := spawn(e.commandLine)
	if err == nil {
		e.program = p
		go p.write()
		go e.read(p)
		go e.open(p)
		go e.watch(p)
	}
	return err
}

// open ends an opening: the histories have what an earlier program could not send.
func (e *Executor) open(p *program) {
	ctx, histories := context.Background(), map[string][]Result{}
	list, err := Ask[struct{ Resources []string }](ctx, e, Command{"op": "list"})
	for place := 0; err == nil && place < len(list.Resources); place++ {
		histories[list.Resources[place]], err = e.history(ctx, list.Resources[place])
	}
	e.mutex.Lock()
	defer e.mutex.Unlock()
	if err == nil && p.ready == nil {
		err = ErrTooOld
	}
	if err != nil {
		e.kill(p, err)
	} else if p.err == nil {
		e.opened(p, list.Resources, histories)
		e.broadcast()
	}
}

func (e *Executor) history(ctx context.Context, id string) ([]Result, error) {
	reply, err := Ask[struct{ Results []Result }](ctx, e, Command{"op": "history", "id": id})
	for place := range reply.Results {
		reply.Results[place].ID = id
	}
	return reply.Results, err
}

// Leave ends the program in order, and returns its status: each running action ends within its timeout, and is recorded. Queued
// actions are dropped, as the next opening reports; monitors stay in the journal.
func (e *Executor) Leave(ctx context.Context) (int, error) {
	if _, err := e.ask(ctx, Command{"op": "leave"}, false); err != nil && !errors.As(err, new(*Ended)) {
		return 0, err
	}
	return e.Wait(ctx)
}

// Close closes the program's input: running agents are killed, and the next opening reports their actions as interrupted.
func (e *Executor) Close(ctx context.Context) (int, error) {
	return e.ends(ctx, func(p *program) { p.stdin.Close() })
}

// Kill kills the program. Its agents live on, and the next opening deals with them. A program that does not end, as on a dead device, counts
// as ended after ten seconds; Start then starts another one.
func (e *Executor) Kill(ctx context.Context) (int, error) {
	return e.ends(ctx, func(p *program) { e.kill(p, nil) })
}

// Wait waits for the end of the program, and returns its status.
func (e *Executor) Wait(ctx context.Context) (int, error) {
	return e.ends(ctx, func(*program) {})
}

func (e *Executor) ends(ctx context.Context, by func(*program)) (int, error) {
	var once sync.Once
	err := e.await(ctx, "the end of the program", func(p *program) bool {
		once.Do(func() { by(p) })
		return false
	})
	if ended, ok := err.(*Ended); ok {
		return ended.Status, nil
	}
	return 0, err
}

// Next takes the oldest result, and waits for it. Results for which Result or Perform wait are theirs. It returns an *Ended once all
// that the program sent was taken.
func (e *Executor) Next(ctx context.Context) (Result, error) {
	return e.next(ctx, "a result", func(result Result) bool { return result.of != e.journal || e.awaited[result.Call] == 0 })
}

// Result waits for the result of a call; for a recurring monitor it is the oldest that was not taken. After an *Ended the result
// comes with the next Start. A result may go to Next before Result asks for it: Perform does both.
func (e *Executor) Result(ctx context.Context, call int64) (Result, error) {
	e.expect(call, 1)
	defer e.expect(call, -1)
	return e.next(ctx, "the result of the call", func(result Result) bool { return result.of == e.journal && result.Call == call })
}

// next takes the oldest result that is wanted.
func (e *Executor) next(ctx context.Context, what string, wanted func(Result) bool) (found Result, err error) {
	err = e.await(ctx, what, func(*program) bool {
		for place, result := range e.results {
			if wanted(result) {
				copy(e.results[1:place+1], e.results[:place])
				found, e.results = result, e.results[1:]
				return true
			}
		}
		return false
	})
	return
}

// expect keeps the results of a call for Result, once more, or once less.
func (e *Executor) expect(call int64, times int) {
	e.mutex.Lock()
	defer e.mutex.Unlock()
	if e.awaited[call] += times; e.awaited[call] == 0 {
		delete(e.awaited, call)
	}
	e.broadcast()
}

// await waits until this finds something. It returns the error of the program once all its output was read, and that of the context at its
// end.
func (e *Executor) await(ctx context.Context, what string, found func(*program) bool) error {
	e.mutex.Lock()
	defer e.mutex.Unlock()
	p := e.program
	if p == nil {
		return ErrNotStarted
	}
	for !found(p) {
		switch {
		case p.err != nil:
			return p.err
		case ctx.Err() != nil:
			return fmt.Errorf("%s did not come in time: %w", what, ctx.Err())
		}
		changed := e.changed
		e.mutex.Unlock()
		select {
		case <-changed:
		case <-ctx.Done():
		}
		e.mutex.Lock()
	}
	return nil
}

func (e *Executor) broadcast() {
	close(e.changed)
	e.changed = make(chan struct{})
}
