package ocfexec

import (
	"errors"
	"fmt"
)

// Ready is what the program sent when it had opened its journal. With --memory, Journal and Identity are nil. An older program sends
// neither Identity nor NextCall.
type Ready struct {
	Version           string
	Journal, Identity *string             // the directory, as it was given, and 32 hex digits
	NextCall          *int64              `json:"next_call"`
	Report            []Result            // what the opening reported as interrupted or dropped
	Histories         map[string][]Result // of each registered resource, oldest first
	PID               int                 // of the program
}

// Result is the result of an action. Only one that came as a notice has Key, Expect and Failed. Moments are in milliseconds since 1970, and
// intervals in milliseconds, here and below.
type Result struct {
	ID, Action, Outcome, Name      string
	Call, Run, Interval, Since, At int64
	Code, Expect                   int
	Key, Tag, Reason               string // the reason of a failure, where it is known
	Lives                          int    // the process that is left of an interrupted action, or 0
	Failed                         *bool
	Signal                         *int // that of a signaled action
	of                             *journal
}

// Errors of calls. At the end of its context a call returns an error that wraps that of the context; its command may be carried out all
// the same. The last three are causes why a program was killed.
var (
	ErrNotStarted = errors.New("the executor was not started")
	ErrRunning    = errors.New("the executor runs already")
	ErrTooOld     = errors.New("the program answers without having said that it is ready: it is older than this library")
	ErrGarbled    = errors.New("the program wrote no line of an executor")
	ErrNoAnswer   = errors.New("the program does not answer")
)

// Ended says that the program has ended, and that all its output was read. Start starts it again.
type Ended struct {
	Status int   // its exit status, as ocfexec(8) lists them, or minus the number of the signal that ended it
	Cause  error // why this library killed it, or nil
}

func (e *Ended) Error() string {
	if e.Cause != nil {
		return fmt.Sprintf("the executor was killed: %v", e.Cause)
	}
	return fmt.Sprintf("the executor ended with status %d", e.Status)
}

func (e *Ended) Unwrap() error { return e.Cause }

// Refused says that a command was refused. Nothing has changed, unless the word is "disk".
type Refused struct {
	Command      Command
	Word         string `json:"error"` // as "exists"
	Number       int
	Key, Message string // the offending key of the command, and a sentence, if any
}

func (e *Refused) Error() string {
	return fmt.Sprintf("%v %v was refused as %s: %s", e.Command["op"], e.Command["id"], e.Word, e.Message)
}
