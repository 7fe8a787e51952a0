package main

// Kind is what a wire is.
type Kind uint8

// The kinds of wires.
const (
	Payload Kind = iota
	Ack
	Safe
	Close
)

// Wire is what goes over a link. Port is the receiver's.
type Wire struct {
	port  int32
	pulse int32
	kind  Kind
	x     U128
}

// Item is a payload that came by a port.
type Item struct {
	port int32
	x    U128
}

// Node is a node under synchroniser alpha. It has one inbox, or a link from and to each neighbour.
//
// A channel keeps the order of each sender, so a directed link is first in, first out. At most two wires of a link are
// under way at any time, so an inbox with room for four a neighbour is never full, and no send blocks.
type Node struct {
	inbox   chan Wire
	in, out []chan Wire
	wake    chan struct{}
	peers   []*Node
	back    []int32 // this node's port at the neighbour of each port

	last, pulse     int
	waiting, closed int
	said            bool
	safes           [2]int    // how many were taken of an even and of an odd pulse
	boxes           [2][]Item // what was taken of an even and of an odd pulse
	program         Colouring
}

func (v *Node) send(port int, w Wire) {
	w.port = v.back[port]
	peer := v.peers[port]
	if v.out == nil {
		peer.inbox <- w
		return
	}
	v.out[port] <- w
	select {
	case peer.wake <- struct{}{}:
	default: // it is awake already
	}
}

func (v *Node) payload(port int, x U128) {
	v.waiting++
	v.send(port, Wire{pulse: int32(v.pulse), kind: Payload, x: x})
}

func (v *Node) all(kind Kind) {
	for port := range v.peers {
		v.send(port, Wire{pulse: int32(v.pulse), kind: kind})
	}
}

// settle says safe once every payload of the pulse is acknowledged.
func (v *Node) settle() {
	if v.waiting == 0 && v.pulse < v.last {
		v.said = true
		v.all(Safe)
	}
}

func (v *Node) canPulse() bool {
	return v.said && v.pulse < v.last && v.safes[v.pulse&1] == len(v.peers)
}

func (v *Node) makePulse() {
	now := v.pulse & 1
	box := v.boxes[now]
	v.boxes[now], v.safes[now], v.said = box[:0], 0, false
	v.pulse++
	v.program.round(v, box)
	if v.pulse == v.last {
		v.all(Close)
	}
	v.settle()
}

func (v *Node) take(w Wire) {
	switch w.kind {
	case Payload:
		v.boxes[w.pulse&1] = append(v.boxes[w.pulse&1], Item{w.port, w.x})
		v.send(int(w.port), Wire{pulse: w.pulse, kind: Ack})
	case Ack:
		v.waiting--
		v.settle()
	case Safe:
		v.safes[w.pulse&1]++
	case Close:
		v.closed++
	}
}

// takeLinks takes what the links hold, and says whether there was something.
func (v *Node) takeLinks() bool {
	some := false
	for _, link := range v.in {
		for empty := false; !empty; {
			select {
			case w := <-link:
				v.take(w)
				some = true
			default:
				empty = true
			}
		}
	}
	return some
}

// Run runs the node until all its neighbours have closed.
func (v *Node) Run() {
	for port := range v.peers {
		v.payload(port, v.program.id)
	}
	v.settle()
	for {
		for v.canPulse() {
			v.makePulse()
		}
		switch {
		case v.closed == len(v.peers):
			return
		case v.out == nil:
			v.take(<-v.inbox)
		case !v.takeLinks():
			<-v.wake
		}
	}
}
