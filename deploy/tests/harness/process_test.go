package harness

import (
	"fmt"
	"net"
	"testing"
)

// TestPorts has a process take its port and leave it twice. Nobody else gets the port meanwhile.
func TestPorts(t *testing.T) {
	port := Ports(t, 1)[0]
	for i := 0; i < 2; i++ {
		if _, err := reserve(port); err == nil {
			t.Fatal("another test gets the port")
		}
		l, err := net.Listen("tcp", fmt.Sprint("127.0.0.1:", port))
		Must(t, err)
		Must(t, l.Close())
	}
}
