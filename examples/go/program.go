package ocfexec

import (
	"bufio"
	"encoding/json"
	"fmt"
	"io"
	"os"
	"os/exec"
	"os/signal"
	"syscall"
	"time"
)

const (
	askEvery   = 5 * time.Second
	grace      = 10 * time.Second // that a killed program, or one whose output has ended, has to end
	mostUnsent = 1 << 14
)

// question is a command without a reply.
type question struct {
	what  string
	limit time.Duration // how much longer than others it may take
	keeps bool          // whether the results of its call are awaited from the reply on
	reply json.RawMessage
}

// program is one program, from its start to its end.
type program struct {
	command   *exec.Cmd
	stdin     io.WriteCloser
	stdout    io.Reader
	unsent    chan []byte
	questions []*question
	lastLine  time.Time // when its last line came, or the first of its questions was asked
	ready     *Ready
	report    []Result
	isOpen    bool
	cause     error // why this library kills it
	err       error // that it has ended, once all its output was read
}

// spawn starts a program in a session of its own, so that a terminal's signals do not reach it.
func spawn(commandLine []string) (*program, error) {
	command := exec.Command(commandLine[0], commandLine[1:]...)
	command.Stderr, command.SysProcAttr = os.Stderr, &syscall.SysProcAttr{Setsid: true}
	stdin, err := command.StdinPipe()
	if err != nil {
		return nil, err
	}
	stdout, err := command.StdoutPipe()
	if err != nil {
		return nil, err
	}
	// (agents inherit ignored signals; one for which there is a channel has its default action in a child)
	unused := make(chan os.Signal, 1)
	signal.Notify(unused, syscall.SIGINT, syscall.SIGQUIT, syscall.SIGCHLD, syscall.SIGPIPE)
	defer signal.Stop(unused)
	if err := command.Start(); err != nil {
		return nil, err
	}
	// F_SETPIPE_SZ of Linux; an error means that the user has reached the system's limit for pipes, and this one keeps its size
	if raw, err := stdout.(*os.File).SyscallConn(); err == nil {
		raw.Control(func(fd uintptr) { syscall.Syscall(syscall.SYS_FCNTL, fd, 1031, 1<<20) })
	}
	return &program{command: command, stdin: stdin, stdout: stdout, unsent: make(chan []byte, mostUnsent)}, nil
}

// write writes what has to be written, up to the end of the program or of its input: its remaining output is read first.
func (p *program) write() {
	for text := range p.unsent {
		if _, err := p.stdin.Write(text); err != nil {
			return
		}
	}
}

// ask queues a question to be written, unless too many are.
func (p *program) ask(asked *question, text []byte) bool {
	if p.err != nil || len(p.unsent) == cap(p.unsent) {
		return false
	}
	if len(p.questions) == 0 {
		p.lastLine = time.Now()
	}
	p.unsent <- text
	p.questions = append(p.questions, asked)
	return true
}

// read reads all of the output, and then waits for the end. A part of a line at the end of the output is nothing.
func (e *Executor) read(p *program) {
	reader := bufio.NewReaderSize(p.stdout, 1<<16)
	text, err := reader.ReadBytes('\n')
	for err == nil && e.take(p, text) == nil {
		text, err = reader.ReadBytes('\n')
	}
	late := time.AfterFunc(grace, func() { p.command.Process.Kill() })
	defer late.Stop()
	p.command.Wait()
	status := p.command.ProcessState.ExitCode()
	if wait := p.command.ProcessState.Sys().(syscall.WaitStatus); wait.Signaled() {
		status = -int(wait.Signal())
	}
	e.end(p, status)
}

// end notes the end of a program.
func (e *Executor) end(p *program, status int) {
	e.mutex.Lock()
	defer e.mutex.Unlock()
	if p.err != nil {
		return
	}
	close(p.unsent)
	if p.ready != nil {
		e.arrived()
	}
	p.err, p.isOpen = &Ended{status, p.cause}, false
	e.broadcast()
}

// kill kills a program for this cause. One that does not end, as on a dead device, counts as ended after a while.
func (e *Executor) kill(p *program, cause error) {
	if p.cause == nil {
		p.cause = cause
	}
	p.command.Process.Kill()
	time.AfterFunc(grace, func() { e.end(p, -int(syscall.SIGKILL)) })
}

// watch asks for the version every few seconds, and kills a program that does not answer for as long as the patience.
func (e *Executor) watch(p *program) {
	e.mutex.Lock()
	defer e.mutex.Unlock()
	if p.err != nil || e.options.Patience == 0 {
		return
	}
	if p.ready != nil && len(p.questions) == 0 {
		p.ask(&question{what: "an answer"}, []byte("{\"op\":\"version\"}\n"))
	} else if p.ready != nil && time.Since(p.lastLine) > e.options.Patience+p.questions[0].limit {
		e.kill(p, fmt.Errorf("%w: %s did not come", ErrNoAnswer, p.questions[0].what))
	}
	every := e.options.Patience / 4
	if every > askEvery {
		every = askEvery
	}
	time.AfterFunc(every, func() { e.watch(p) })
}

// line has the keys by which lines are told apart.
type line struct {
	Kind, End           string
	Ready, Outcome, Tag json.RawMessage
	Call                int64
}

// kind is the kind of a line, by its other keys where an older program sends none.
func (l line) kind() string {
	switch {
	case l.Kind != "":
		return l.Kind
	case l.Ready != nil:
		return "ready"
	case l.Outcome != nil:
		return "notice"
	case l.End != "" && l.Tag == nil:
		return "trouble"
	}
	return "reply"
}

// take takes a line of a program, which is killed if no executor writes such a one.
func (e *Executor) take(p *program, text []byte) error {
	e.mutex.Lock()
	defer e.mutex.Unlock()
	defer e.broadcast()
	if p.err != nil {
		return p.err
	}
	p.lastLine = time.Now()
	err := e.takeLine(p, text)
	if err != nil {
		e.kill(p, fmt.Errorf("%w: %.200q", ErrGarbled, text))
	}
	return err
}

// takeLine takes a line by its kind; one of an unknown kind is ignored.
func (e *Executor) takeLine(p *program, text []byte) error {
	var found line
	var ready Ready
	var result Result
	err := json.Unmarshal(text, &found)
	switch kind := found.kind(); {
	case err != nil:
	case kind == "ready":
		if err = json.Unmarshal(text, &ready); err == nil {
			e.takeReady(p, &ready)
		}
	case kind == "report" || kind == "notice":
		if err = json.Unmarshal(text, &result); err == nil {
			e.takeResult(p, result)
		}
	case kind == "trouble":
		e.options.OnTrouble(found.End)
	case kind == "reply" && len(p.questions) == 0:
		err = ErrGarbled
	case kind == "reply":
		asked := p.questions[0]
		p.questions, asked.reply = p.questions[1:], text
		e.journal.see(found.Call, 0)
		if asked.keeps && found.Call != 0 {
			e.awaited[found.Call]++
		}
	}
	return err
}
