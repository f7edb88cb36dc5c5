// Goes through the run of the hunt by a debug adapter, as a client that was made apart from it: Debian's
// golang-github-google-go-dap-dev reads and writes the messages. It fails where an answer is missing or another.
//
// usage: client PROGRAM MODULE PLAN PIECES
package main

import (
	"bufio"
	"encoding/base64"
	"encoding/json"
	"fmt"
	"io"
	"os"
	"os/exec"
	"strings"

	"github.com/google/go-dap"
)

type client struct {
	in    io.WriteCloser
	out   *bufio.Reader
	seq   int
	stops []string
}

func check(err error, what string) {
	if err != nil {
		fmt.Fprintf(os.Stderr, "%s: %v\n", what, err)
		os.Exit(1)
	}
}

func want(ok bool, what string, found interface{}) {
	if !ok {
		check(fmt.Errorf("found %v", found), what)
	}
}

func (c *client) request(command string) dap.Request {
	c.seq++
	return dap.Request{ProtocolMessage: dap.ProtocolMessage{Seq: c.seq, Type: "request"}, Command: command}
}

// ask sends a request and reads up to its response; events before it are of the request before.
func (c *client) ask(request dap.Message, command string) dap.Message {
	check(dap.WriteProtocolMessage(c.in, request), command)
	for {
		message, err := dap.ReadProtocolMessage(c.out)
		check(err, command)
		switch it := message.(type) {
		case *dap.StoppedEvent:
			c.stops = append(c.stops, it.Body.Reason)
		case dap.ResponseMessage:
			response := it.GetResponse()
			want(response.RequestSeq == c.seq, command+": the number of its request", response.RequestSeq)
			want(response.Command == command, command+": its command", response.Command)
			return message
		}
	}
}

// stopped reads the next stop, which a motion tells behind its response.
func (c *client) stopped(reason string) {
	for {
		message, err := dap.ReadProtocolMessage(c.out)
		check(err, "a stop")
		if it, ok := message.(*dap.StoppedEvent); ok {
			want(it.Body.Reason == reason && it.Body.AllThreadsStopped, "a stop: "+reason, it.Body)
			return
		}
	}
}

func (c *client) evaluate(line string) string {
	request := dap.EvaluateRequest{Request: c.request("evaluate"), Arguments: dap.EvaluateArguments{Expression: line}}
	response, ok := c.ask(&request, "evaluate").(*dap.EvaluateResponse)
	want(ok && response.Success, "evaluate "+line, response)
	return response.Body.Result
}

func main() {
	if len(os.Args) != 5 {
		fmt.Fprintln(os.Stderr, "usage: client PROGRAM MODULE PLAN PIECES")
		os.Exit(2)
	}
	adapter := exec.Command(os.Args[1], "dap")
	in, err := adapter.StdinPipe()
	check(err, "its input")
	out, err := adapter.StdoutPipe()
	check(err, "its output")
	check(adapter.Start(), "its start")
	c := &client{in: in, out: bufio.NewReader(out)}

	begun := dap.InitializeRequest{Request: c.request("initialize"), Arguments: dap.InitializeRequestArguments{AdapterID: "wreplay"}}
	can, ok := c.ask(&begun, "initialize").(*dap.InitializeResponse)
	want(ok && can.Body.SupportsStepBack && can.Body.SupportsDataBreakpoints, "initialize", can)
	files, err := json.Marshal(map[string]interface{}{"module": os.Args[2], "plan": os.Args[3], "pieces": []string{os.Args[4]}})
	check(err, "the files")
	launch := dap.LaunchRequest{Request: c.request("launch"), Arguments: files}
	launched, ok := c.ask(&launch, "launch").(*dap.LaunchResponse)
	want(ok && launched.Success, "launch", launched)

	// a place of the queue was written twice: break where it is written
	info := dap.DataBreakpointInfoRequest{Request: c.request("dataBreakpointInfo"), Arguments: dap.DataBreakpointInfoArguments{Name: "write 1344 4"}}
	named, ok := c.ask(&info, "dataBreakpointInfo").(*dap.DataBreakpointInfoResponse)
	want(ok && named.Body.DataId == "write 1344 4", "dataBreakpointInfo", named)
	data := dap.SetDataBreakpointsRequest{Request: c.request("setDataBreakpoints"),
		Arguments: dap.SetDataBreakpointsArguments{Breakpoints: []dap.DataBreakpoint{{DataId: "write 1344 4"}}}}
	set, ok := c.ask(&data, "setDataBreakpoints").(*dap.SetDataBreakpointsResponse)
	want(ok && len(set.Body.Breakpoints) == 1 && set.Body.Breakpoints[0].Verified, "setDataBreakpoints", set)
	done := dap.ConfigurationDoneRequest{Request: c.request("configurationDone")}
	c.ask(&done, "configurationDone")
	c.stopped("entry")

	asked := dap.ThreadsRequest{Request: c.request("threads")}
	threads, ok := c.ask(&asked, "threads").(*dap.ThreadsResponse)
	want(ok && len(threads.Body.Threads) == 3, "threads", threads)
	for range []int{1, 2} {
		on := dap.ContinueRequest{Request: c.request("continue"), Arguments: dap.ContinueArguments{ThreadId: 1}}
		c.ask(&on, "continue")
		c.stopped("data breakpoint")
	}
	writer := c.evaluate("writer 1344")
	want(strings.HasSuffix(writer, "version 2 written by 0.15\n"), "writer 1344", writer)

	// where the threads are, and what they hold
	stack := dap.StackTraceRequest{Request: c.request("stackTrace"), Arguments: dap.StackTraceArguments{ThreadId: 2}}
	frames, ok := c.ask(&stack, "stackTrace").(*dap.StackTraceResponse)
	want(ok && len(frames.Body.StackFrames) == 3 && frames.Body.StackFrames[0].Name == "put", "stackTrace", frames)
	scope := dap.ScopesRequest{Request: c.request("scopes"), Arguments: dap.ScopesArguments{FrameId: frames.Body.StackFrames[0].Id}}
	scopes, ok := c.ask(&scope, "scopes").(*dap.ScopesResponse)
	want(ok && len(scopes.Body.Scopes) == 3, "scopes", scopes)
	held := dap.VariablesRequest{Request: c.request("variables"),
		Arguments: dap.VariablesArguments{VariablesReference: scopes.Body.Scopes[0].VariablesReference}}
	variables, ok := c.ask(&held, "variables").(*dap.VariablesResponse)
	want(ok && len(variables.Body.Variables) > 0, "variables", variables)
	read := dap.ReadMemoryRequest{Request: c.request("readMemory"), Arguments: dap.ReadMemoryArguments{MemoryReference: "memory", Offset: 1024, Count: 4}}
	memory, ok := c.ask(&read, "readMemory").(*dap.ReadMemoryResponse)
	want(ok, "readMemory", memory)
	bytes, err := base64.StdEncoding.DecodeString(memory.Body.Data)
	want(err == nil && len(bytes) == 4, "readMemory", memory.Body.Data)

	// back to the write before, and on by a step of a thread
	back := dap.ReverseContinueRequest{Request: c.request("reverseContinue"), Arguments: dap.ReverseContinueArguments{ThreadId: 1}}
	c.ask(&back, "reverseContinue")
	c.stopped("data breakpoint")
	first := c.evaluate("writer 1344")
	want(strings.Contains(first, "version 1 written by 1."), "writer 1344, before", first)
	step := dap.StepBackRequest{Request: c.request("stepBack"), Arguments: dap.StepBackArguments{ThreadId: 1}}
	c.ask(&step, "stepBack")
	c.stopped("step")
	next := dap.NextRequest{Request: c.request("next"), Arguments: dap.NextArguments{ThreadId: 2}}
	c.ask(&next, "next")
	c.stopped("step")
	end := dap.DisconnectRequest{Request: c.request("disconnect")}
	c.ask(&end, "disconnect")
	check(adapter.Wait(), "its end")
	fmt.Printf("the place of the queue was %sand %s", strings.SplitN(first, " ", 5)[4], strings.SplitN(writer, " ", 5)[4])
}
