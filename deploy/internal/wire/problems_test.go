package wire

import (
	"fmt"
	"testing"

	"luvdregan.example/resb/deploy/internal/engine"
)

// A patch of 500,000 short keys makes a bundle whose text is longer than the library writes, and a file whose keys share bytes may be longer as
// JSON.
func TestTooLongInAnotherForm(t *testing.T) {
	for _, code := range []string{"TooLarge", "TreeTooLarge"} {
		err := fmt.Errorf("another form: %w", &engine.Fault{Code: code})
		if p := ProblemOf(err); p.Status != 413 || p.Code != code {
			t.Errorf("%v is %d %s", err, p.Status, p.Code)
		}
	}
}
