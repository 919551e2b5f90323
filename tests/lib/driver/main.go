// Does the steps of a case of tests/cli/library_cases.json with the library in Go, and prints what came of each as
// tests/lib/driver.py does. Use: driver CASES NUMBER COMMAND..
package main

import (
	"context"
	"encoding/json"
	"errors"
	"fmt"
	"log"
	"os"
	"strconv"
	"time"

	"ocfexec"
)

const (
	patience = time.Minute
	short    = 200 * time.Millisecond
)

type dict = map[string]any

func say(value any) {
	text, err := json.Marshal(value)
	if err != nil {
		log.Fatal(err)
	}
	fmt.Println(string(text))
}

func summary(result ocfexec.Result) string {
	return fmt.Sprintf("%s %d %d %s", result.ID, result.Call, result.Run, result.Outcome)
}

func all(results []ocfexec.Result) []string {
	found := []string{}
	for _, result := range results {
		found = append(found, summary(result))
	}
	return found
}

func orNull(text string) any {
	if text == "" {
		return nil
	}
	return text
}

// described is an error as a value.
func described(err error) dict {
	var refused *ocfexec.Refused
	var ended *ocfexec.Ended
	switch {
	case errors.Is(err, ocfexec.ErrGarbled):
		return dict{"error": "Garbled"}
	case errors.Is(err, ocfexec.ErrTooOld):
		return dict{"error": "TooOld"}
	case errors.Is(err, ocfexec.ErrNotStarted):
		return dict{"error": "NotStarted"}
	case errors.Is(err, ocfexec.ErrRunning):
		return dict{"error": "AlreadyRunning"}
	case errors.As(err, &ended):
		return dict{"error": "Ended", "status": ended.Status}
	case errors.Is(err, context.DeadlineExceeded):
		return dict{"error": "Late"}
	case errors.As(err, &refused):
		return dict{"error": "Refused", "op": refused.Command["op"], "word": refused.Word, "number": refused.Number, "key": orNull(refused.Key),
			"message": orNull(refused.Message)}
	}
	return dict{"error": err.Error()}
}

type driver struct {
	executor *ocfexec.Executor
	problems *[]string
	ctx      context.Context
}

// drained takes the results that have come; the reply to version comes after all that was said before.
func (d driver) drained() error {
	if _, err := ocfexec.Ask[dict](d.ctx, d.executor, ocfexec.Command{"op": "version"}); err != nil {
		return err
	}
	for {
		ctx, cancel := context.WithCancel(d.ctx)
		cancel()
		result, err := d.executor.Next(ctx)
		if err != nil {
			return nil
		}
		say(summary(result))
	}
}

func (d driver) wait() error {
	status, err := d.executor.Wait(d.ctx)
	return answer(dict{"status": status}, err)
}

func answer(value any, err error) error {
	if err == nil {
		say(value)
	}
	return err
}

func command(value any) ocfexec.Command { return value.(dict) }

func (d driver) does(word string, more any) error {
	e, ctx := d.executor, d.ctx
	switch word {
	case "start":
		ready, err := e.Start(ctx)
		return answer(dict{"started": all(ready.Report)}, err)
	case "exec":
		reply, err := ocfexec.Ask[struct{ Call int64 }](ctx, e, ocfexec.Command{"op": "exec", "id": more, "action": "start"})
		return answer(dict{"call": reply.Call}, err)
	case "ask":
		reply, err := ocfexec.Ask[dict](ctx, e, command(more))
		delete(reply, "kind")
		return answer(dict{"reply": reply}, err)
	case "late":
		soon, cancel := context.WithTimeout(ctx, short)
		defer cancel()
		_, err := ocfexec.Ask[dict](soon, e, command(more))
		return err
	case "result":
		result, err := e.Result(ctx, int64(more.(float64)))
		return answer(summary(result), err)
	case "events":
		for count := int(more.(float64)); count > 0; count-- {
			result, err := e.Next(ctx)
			if err := answer(summary(result), err); err != nil {
				return err
			}
		}
		return nil
	case "rest":
		return d.drained()
	case "metadata":
		reply, err := ocfexec.Ask[struct{ End string }](ctx, e, ocfexec.Command{"op": "meta", "id": more})
		return answer(dict{"error": "NoMetadata", "reason": reply.End}, err)
	case "problems":
		return answer(dict{"problems": *d.problems}, nil)
	case "kill":
		status, err := e.Kill(ctx)
		return answer(dict{"status": status}, err)
	case "leave":
		status, err := e.Leave(ctx)
		return answer(dict{"status": status}, err)
	case "close":
		status, err := e.Close(ctx)
		return answer(dict{"status": status}, err)
	case "wait":
		return d.wait()
	case "pause":
		time.Sleep(time.Duration(more.(float64) * float64(time.Second)))
		return nil
	}
	return errors.New("no such step: " + word)
}

func main() {
	text, err := os.ReadFile(os.Args[1])
	if err != nil {
		log.Fatal(err)
	}
	number, err := strconv.Atoi(os.Args[2])
	if err != nil {
		log.Fatal(err)
	}
	var cases []struct{ Does [][]any }
	if err := json.Unmarshal(text, &cases); err != nil {
		log.Fatal(err)
	}
	ctx, cancel := context.WithTimeout(context.Background(), patience)
	defer cancel()
	var problems []string
	d := driver{ocfexec.New(os.Args[3:], ocfexec.Options{
		OnNewJournal: func(difference string) { say(dict{"journal": difference}) },
		OnTrouble:    func(word string) { problems = append(problems, word) },
	}), &problems, ctx}
	for _, step := range cases[number].Does {
		if err := d.does(step[0].(string), append(step, nil)[1]); err != nil {
			say(described(err))
		}
	}
}
