package api

import (
	"net/http"
	"testing"

	"luvdregan.example/resb/deploy/internal/front"
)

// TestEachChangeIsAudited has a name for the audit log for each operation that changes something, and for no other.
func TestEachChangeIsAudited(t *testing.T) {
	for _, address := range addresses {
		for _, o := range address.Operations {
			isChange := o.Kind == front.KindChange
			if isChange != (o.Action != "") || isChange && o.Method == http.MethodGet {
				t.Errorf("%s %s: %q", o.Method, address.Pattern, o.Action)
			}
		}
	}
}
