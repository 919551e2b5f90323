package ocfexec

import "fmt"

// journal is what was seen of one journal.
type journal struct {
	identity          *string // empty with --memory, and nil if it is not known
	nextCall, lastRun int64
	before            int64            // the last run before the last opening
	delivered         map[string]int64 // the last numbers, by key
	isKnown           bool             // its histories were read
}

// key names the results of a resource that have ascending numbers, since it runs one action at a time: their runs, or the calls of those that
// were dropped, which have no run.
func (r Result) key() (string, int64) {
	if r.Run == 0 {
		return r.ID + " dropped", r.Call
	}
	return r.ID, r.Run
}

// isNew tells whether a result was not delivered yet, by whichever line or history.
func (j *journal) isNew(result Result) bool {
	key, number := result.key()
	return number > j.delivered[key]
}

// note notes a result, and returns whether it was new.
func (j *journal) note(result Result) bool {
	key, number := result.key()
	isNew := j.isNew(result)
	if isNew {
		j.delivered[key] = number
	}
	return isNew
}

func (j *journal) see(call, run int64) {
	if call >= j.nextCall {
		j.nextCall = call + 1
	}
	if run > j.lastRun {
		j.lastRun = run
	}
}

// difference says in a sentence why an opening, with this report, is not of this journal as it was; it is empty if it is, as the first one.
// An older program tells only that it keeps no journal.
func (j *journal) difference(ready *Ready, report []Result) string {
	switch {
	case j.identity != nil && ready.Journal == nil:
		return "the program keeps no journal: calls and runs begin again at 1"
	case j.identity != nil && ready.Identity != nil && *ready.Identity != *j.identity:
		return fmt.Sprintf("the journal is another one, %s: its calls and runs are others", *ready.Identity)
	case ready.NextCall != nil && *ready.NextCall < j.nextCall:
		return fmt.Sprintf("the journal is an older copy: its next call is %d, after %d", *ready.NextCall, j.nextCall)
	}
	for _, result := range report {
		if !j.isNew(result) {
			return "the journal is an older copy: it reports actions whose results have come"
		}
	}
	return ""
}

// renew goes on with another journal, whose numbers begin again.
func (e *Executor) renew(difference string) {
	e.options.OnNewJournal(difference)
	e.journal = &journal{identity: e.journal.identity, delivered: map[string]int64{}, isKnown: e.program.isOpen}
}

// takeReady compares the journal with the one before, and then takes the report.
func (e *Executor) takeReady(p *program, ready *Ready) {
	if difference := e.journal.difference(ready, e.arriving); difference != "" {
		e.renew(difference)
	}
	e.journal.identity, e.journal.before = ready.Identity, e.journal.lastRun
	if ready.Journal == nil {
		e.journal.identity = new(string)
	}
	if ready.NextCall != nil {
		e.journal.see(*ready.NextCall-1, 0)
	}
	for _, result := range e.arriving {
		e.journal.see(result.Call, result.Run)
	}
	ready.PID, ready.Report = p.command.Process.Pid, p.report
	p.ready = ready
}

// takeResult takes a line of the report, or a notice: runs that begin after an opening have greater numbers than all before it.
func (e *Executor) takeResult(p *program, result Result) {
	if p.ready != nil {
		if !e.journal.isNew(result) || 0 < result.Run && result.Run <= e.journal.before {
			e.renew(fmt.Sprintf("the journal is an older copy: run %d has come before", result.Run))
		}
		e.journal.see(result.Call, result.Run)
	} else if result.Outcome == "interrupted" || result.Outcome == "dropped" {
		p.report = append(p.report, result)
	}
	e.arriving = append(e.arriving, result)
	if p.isOpen {
		e.arrived()
	}
}

// opened ends an opening that has read the histories. The first ones of a journal are of another program. No line reports withdrawn actions.
func (e *Executor) opened(p *program, ids []string, histories map[string][]Result) {
	arriving := map[[2]int64]bool{}
	for _, result := range e.arriving {
		arriving[[2]int64{result.Call, result.Run}] = true
	}
	for _, id := range ids {
		for _, result := range histories[id] {
			e.journal.see(result.Call, result.Run)
			isLate := result.Outcome != "cancelled" && !arriving[[2]int64{result.Call, result.Run}]
			if isLate && e.journal.note(result) && e.journal.isKnown {
				e.deliver(result)
			}
		}
	}
	p.ready.Histories, p.isOpen, e.journal.isKnown = histories, true, true
	e.arrived()
}

// arrived delivers what has come.
func (e *Executor) arrived() {
	for _, result := range e.arriving {
		e.journal.note(result)
		e.deliver(result)
	}
	e.arriving = nil
}

func (e *Executor) deliver(result Result) {
	result.of = e.journal
	e.results = append(e.results, result)
}
