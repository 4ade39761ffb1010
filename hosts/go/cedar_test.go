package cedar

import (
	"errors"
	"runtime"
	"strings"
	"sync"
	"testing"
	"time"
)

const two = `@note @id("a")
permit(principal == ?principal, action, resource in (?resource)); // one
forbid(principal is A::U in G::"g", action in [Action::"x", A::Action::"y"], resource,);`

func TestPoliciesHaveTheirParts(t *testing.T) {
	policies, err := ParsePolicies(two)
	if err != nil || len(policies) != 2 {
		t.Fatal(err, policies)
	}
	first, second := policies[0], policies[1]
	if first.ID != "policy0" || !first.IsTemplate || first.IsForbid || first.Annotations["id"] != "a" {
		t.Error(first)
	}
	if two[first.Place.Start:first.Place.End] != two[:strings.Index(two, " // one")] {
		t.Error(first.Place)
	}
	if second.Principal.Op != "is" || second.Principal.Type != "A::U" || second.Principal.Entities[0] != (Entity{"G", "g"}) {
		t.Error(second.Principal)
	}
	if slots := first.Slots(); strings.Join(slots, " ") != "?principal ?resource" || second.Slots() != nil {
		t.Error(slots)
	}
	if len(second.Action.Entities) != 2 || second.Action.Entities[1] != (Entity{"A::Action", "y"}) {
		t.Error(second.Action)
	}
}

func TestFaultsHaveTheirPlaces(t *testing.T) {
	_, err := ParsePolicies("permit(principal, action, resource) when { \"\U0001f600é\" == foo(1) };")
	var faults *Faults
	if !errors.As(err, &faults) || len(faults.List) != 1 {
		t.Fatal(err)
	}
	at := faults.List[0].Place.Begins
	if at != (Position{1, 52, 53}) || err.Error() != "1:52: `foo` is not a valid function" {
		t.Error(at, err)
	}
	if _, err := ParseExpression("\xff"); err != ErrNotUTF8 {
		t.Error(err)
	}
}

func TestFaultsAreShownAtTheirLines(t *testing.T) {
	text := "permit(principal, action, resource);\r\n\tpermit(principal é, action);\r\n"
	_, err := ParsePolicies(text)
	var faults *Faults
	if !errors.As(err, &faults) || len(faults.List) != 1 {
		t.Fatal(err)
	}
	line := "\n  | \tpermit(principal é, action);\n  | \t" + strings.Repeat(" ", 17) + "^ "
	if shown := faults.Shown("a.cedar", text); !strings.HasPrefix(shown, "a.cedar:2:19: ") || !strings.Contains(shown, line) {
		t.Error(shown)
	}
	if shown := faults.Shown("", "another text"); !strings.HasPrefix(shown, "2:19: ") {
		t.Error(shown)
	}
	many := strings.Repeat("permit(a);\n", 20000)
	if _, err := ParsePolicies(many); !errors.As(err, &faults) || strings.Count(faults.Shown("", many), "\n") < 60000 {
		t.Error(err)
	}
}

func TestWhatMayBePassed(t *testing.T) {
	policies, err := ParsePolicies(`permit(principal == A::"a\0b", action, resource);`)
	if err != nil || len(policies) != 1 || len(policies[0].Principal.Entities) != 1 {
		t.Fatal(policies, err)
	}
	if id := policies[0].Principal.Entities[0].ID; id != "a\x00b" {
		t.Errorf("%q", id)
	}
	if laid, err := LayoutPolicies("// a\x00b\npermit(a);", 80, 2); err != nil || !strings.HasPrefix(laid, "// a\x00b\n") {
		t.Error(laid, err)
	}
	if policies, err := ParsePolicies(""); err != nil || len(policies) != 0 {
		t.Error(policies, err)
	}
	if _, err := LayoutPolicies("", 80, -1); err != ErrNegative {
		t.Error(err)
	}
	if _, err := PositionOf("", -1); err != ErrNegative {
		t.Error(err)
	}
}

// deep has had a large stack, which the collector takes back.
func deep(depth int) int {
	var room [64]int
	if depth == 0 {
		return room[0]
	}
	return deep(depth-1) + room[depth%64]
}

// The collector moves stacks while they hold what the library handed out; it ends the process where
// that has a pointer that is none.
func TestStacksShrink(t *testing.T) {
	end := time.Now().Add(time.Second)
	var all sync.WaitGroup
	for i := 0; i < 4; i++ {
		all.Add(1)
		go func() {
			defer all.Done()
			for time.Now().Before(end) {
				done := make(chan bool)
				go func() {
					deep(400)
					for k := 0; k < 200; k++ {
						ParsePolicies(two)
						ParsePolicies("permit(principal = 1")
					}
					close(done)
				}()
				<-done
			}
		}()
	}
	for time.Now().Before(end) {
		runtime.GC()
	}
	all.Wait()
}

func TestTextsAreWrittenAnew(t *testing.T) {
	text := "// all\npermit(principal,action,resource);"
	if lines, err := FormatPolicies(text); err != nil || lines != "permit ( principal , action , resource ) ;\n" {
		t.Error(lines, err)
	}
	if anew, err := WritePolicies(text); err != nil || anew != "permit (principal, action, resource);\n" {
		t.Error(anew, err)
	}
	if laid, err := LayoutPolicies(text, 80, 2); err != nil || laid != "// all\npermit (principal, action, resource);\n" {
		t.Error(laid, err)
	}
	if at, err := PositionOf("a\nb", 2); err != nil || at != (Position{2, 1, 1}) {
		t.Error(at, err)
	}
}

func TestGoroutinesCallAtOnce(t *testing.T) {
	var all sync.WaitGroup
	for i := 0; i < 8; i++ {
		all.Add(1)
		go func() {
			defer all.Done()
			for k := 0; k < 100; k++ {
				if policies, err := ParsePolicies(two); err != nil || len(policies) != 2 {
					t.Error(err)
				}
			}
		}()
	}
	all.Wait()
}
