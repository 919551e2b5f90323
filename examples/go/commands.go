package ocfexec

import (
	"context"
	"encoding/json"
	"errors"
	"fmt"
	"time"
)

// Command is a command of docs/FORMAT.md, as Command{"op": "exec", "id": "web", "action": "start"}.
type Command map[string]any

// Ask returns the reply to a command as a T, as struct{ Call int64 } or map[string]any, or *Refused. Commands of several goroutines that
// arrive together are recorded by one write.
func Ask[T any](ctx context.Context, e *Executor, command Command) (reply T, err error) {
	text, err := e.ask(ctx, command, false)
	if err == nil && json.Unmarshal(text, &reply) != nil {
		err = fmt.Errorf("%w: %.200q", ErrGarbled, text)
	}
	return
}

// Perform asks for an action, and waits for its result, which does not go to Next.
func (e *Executor) Perform(ctx context.Context, command Command) (result Result, err error) {
	text, err := e.ask(ctx, command, true)
	if err != nil || json.Unmarshal(text, &result) != nil {
		return
	}
	defer e.expect(result.Call, -1)
	return e.Result(ctx, result.Call)
}

func (e *Executor) ask(ctx context.Context, command Command, keeps bool) (json.RawMessage, error) {
	text, err := command.line()
	if err != nil {
		return nil, err
	}
	asked, isSent := &question{what: fmt.Sprintf("the reply to %v", command["op"]), keeps: keeps}, false
	if limit, ok := command["limit"].(int); ok {
		asked.limit = time.Duration(limit) * time.Millisecond
	}
	if err := e.await(ctx, asked.what, func(p *program) bool {
		isSent = isSent || p.ask(asked, text)
		return asked.reply != nil
	}); err != nil {
		return nil, err
	}
	refused := &Refused{Command: command}
	if json.Unmarshal(asked.reply, refused) == nil && refused.Word != "" {
		return nil, refused
	}
	return asked.reply, nil
}

// line is a command as a line. One to which {"end":..} may reply has a tag, since without one that line could be about the program's own
// turns.
func (c Command) line() ([]byte, error) {
	sent := Command{}
	switch c["op"] {
	case "drain", "watch":
		return nil, errors.New("an executor that serves acts by itself, and is not asked to drain or to watch")
	case "tidy", "leave", "meta":
		sent["tag"] = ""
	}
	for key, value := range c {
		sent[key] = value
	}
	text, err := json.Marshal(sent)
	return append(text, '\n'), err
}
