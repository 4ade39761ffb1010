// Package cedar parses, lays out and explains Cedar policies by a library of which each function is
// proved. It calls that by cgo: CGO_CFLAGS names the folder of cedar.h, CGO_LDFLAGS that of
// libcedar.a.
//
// Any goroutines may call at once. A call takes time linear in its text and a small stack, whatever
// the text is. Answers are Go's own values; nothing is left to free.
package cedar

// #cgo LDFLAGS: -l:libcedar.a
// #include "cedar.h"
import "C"

import (
	"errors"
	"fmt"
	"strings"
	"unicode/utf8"
	"unsafe"
)

// Position is a line and its columns, from 1: in characters, and in units of UTF-16.
type Position struct{ Line, Column, UTF16Column int }

// Place is the bytes Start to End of a text, and where they begin and end.
type Place struct {
	Start, End   int
	Begins, Ends Position
}

// Entity is A::B::"c": its type A::B, and its id c, escapes resolved.
type Entity struct{ Type, ID string }

// Scope is what a policy asks of a variable, in the words of Cedar's JSON policies.
type Scope struct {
	Op       string   // All, ==, in or is
	Type     string   // that of `is`, else empty
	Entities []Entity // none where a slot stands there
	IsSlot   bool
}

// Policy is a policy of a text.
type Policy struct {
	ID                          string // policy0, policy1 and so on, in the order of the text
	Printed                     string // its tokens with one space between two
	Annotations                 map[string]string
	Principal, Action, Resource Scope
	Place                       Place // its annotations too
	IsTemplate                  bool  // a slot stands in its scope
	IsForbid                    bool  // else it is a permit
}

// Slots returns the slots of a policy's scope: ?principal before ?resource.
func (p *Policy) Slots() []string {
	var slots []string
	if p.Principal.IsSlot {
		slots = append(slots, "?principal")
	}
	if p.Resource.IsSlot {
		slots = append(slots, "?resource")
	}
	return slots
}

// Related is another place that belongs to a fault, and what it is.
type Related struct {
	Place Place
	Text  string
}

// Fault is a fault of a text. Label and Help are empty where nothing is said.
type Fault struct {
	Kind, Message string
	Label         string   // what could have stood there
	Help          string   // what to write instead
	Expected      []string // the names of all kinds of token that could have stood there
	Related       []Related
	Place         Place // where the parser saw it
	Cause         Place // where its cause stands, as far as the help tells
	HasPlace      bool  // where it is false both are zeros
	Follows       bool  // it may come of the fault before it
}

// Faults is why a text is refused: one fault or more, as the parser tells them.
type Faults struct{ List []Fault }

// Error tells each fault on a line.
func (f *Faults) Error() string {
	var all []string
	for i := range f.List {
		all = append(all, f.List[i].head(""))
	}
	return strings.Join(all, "\n")
}

// Shown tells the faults as people read them: each with its line of the text under this name, carets,
// and what to write instead.
func (f *Faults) Shown(name, text string) string {
	var out strings.Builder
	for i := range f.List {
		f.List[i].show(&out, name, text)
	}
	return out.String()
}

// head is where a fault stands, if that is known, and what it is.
func (f *Fault) head(name string) string {
	var parts []string
	if name != "" {
		parts = append(parts, name)
	}
	if f.HasPlace {
		parts = append(parts, fmt.Sprintf("%d:%d", f.Cause.Begins.Line, f.Cause.Begins.Column))
	}
	if parts == nil {
		return f.Message
	}
	return strings.Join(parts, ":") + ": " + f.Message
}

func (f *Fault) show(out *strings.Builder, name, text string) {
	fmt.Fprintln(out, f.head(name))
	if start, end := f.Cause.Start, f.Cause.End; f.HasPlace && start <= end && end <= len(text) {
		before := text[strings.LastIndexByte(text[:start], '\n')+1 : start]
		behind, _, _ := strings.Cut(text[start:], "\n")
		marked := behind
		if end-start < len(behind) {
			marked = behind[:end-start]
		}
		marks := utf8.RuneCountInString(marked)
		if marks == 0 {
			marks = 1
		}
		blank := strings.Map(func(c rune) rune {
			if c == '\t' {
				return c
			}
			return ' '
		}, before)
		carets := strings.Repeat("^", marks)
		fmt.Fprintf(out, "  | %s%s\n  | %s%s %s\n", before, strings.TrimRight(behind, "\r"), blank, carets, f.Label)
	}
	if f.Help != "" {
		fmt.Fprintf(out, "  = help: %s\n", f.Help)
	}
	for _, other := range f.Related {
		at := other.Place.Begins
		fmt.Fprintf(out, "  = %d:%d: %s\n", at.Line, at.Column, other.Text)
	}
}

// ErrMemory is the heap's refusal; nothing is lost.
var ErrMemory = errors.New("cedar: want of memory")

// ErrNotUTF8 is the refusal of a text that isn't UTF-8.
var ErrNotUTF8 = errors.New("cedar: the text isn't UTF-8")

// ErrNegative is the refusal of a width, an indent or an offset below 0.
var ErrNegative = errors.New("cedar: a number below 0")

// ParsePolicies returns the policies that a text means, in its order; or a *Faults, ErrMemory or
// ErrNotUTF8.
func ParsePolicies(text string) ([]Policy, error) {
	var answer C.cedar_answer
	at, length := bytesOf(text)
	C.cedar_parse_policies(at, length, &answer)
	defer C.cedar_answer_free(&answer)
	if err := refusal(&answer); err != nil {
		return nil, err
	}
	policies := make([]Policy, 0, int(answer.policy_count))
	for _, policy := range list(answer.policies, answer.policy_count) {
		policies = append(policies, policyOf(policy))
	}
	return policies, nil
}

// ParseExpression returns the tokens of one expression, with one space between two.
func ParseExpression(text string) (string, error) {
	var answer C.cedar_answer
	at, length := bytesOf(text)
	C.cedar_parse_expression(at, length, &answer)
	return written(&answer)
}

// FormatPolicies returns the policies that a text means, each on a line as it is printed, without
// comments.
func FormatPolicies(text string) (string, error) {
	var answer C.cedar_answer
	at, length := bytesOf(text)
	C.cedar_format_policies(at, length, &answer)
	return written(&answer)
}

// WritePolicies returns the policies that a text means, written anew from that: each on a line,
// annotations in the order of their keys, no comments, and no parentheses but those that the meaning
// needs. It means the same set as the text.
func WritePolicies(text string) (string, error) {
	var answer C.cedar_answer
	at, length := bytesOf(text)
	C.cedar_write_policies(at, length, &answer)
	return written(&answer)
}

// LayoutPolicies returns a text of policies over lines of a width, the content of brackets so many
// spaces deeper, with all its comments. Neither number may be below 0. The text has to parse, and
// needn't mean something.
func LayoutPolicies(text string, width, indent int) (string, error) {
	if width < 0 || indent < 0 {
		return "", ErrNegative
	}
	var answer C.cedar_answer
	at, length := bytesOf(text)
	C.cedar_layout_policies(at, length, C.size_t(width), C.size_t(indent), &answer)
	return written(&answer)
}

// PositionOf returns where a byte of a text stands; its end, where the byte lies behind it.
func PositionOf(text string, offset int) (Position, error) {
	if offset < 0 {
		return Position{}, ErrNegative
	}
	var position C.cedar_position
	at, length := bytesOf(text)
	switch C.cedar_position_of(at, length, C.size_t(offset), &position) {
	case C.CEDAR_OK:
		return positionOf(position), nil
	case C.CEDAR_NOT_UTF8:
		return Position{}, ErrNotUTF8
	}
	return Position{}, ErrMemory
}

func init() {
	if !bool(C.cedar_is_abi()) {
		panic("cedar: libcedar.a is of another version than cedar.h")
	}
}

func bytesOf(text string) (*C.char, C.size_t) {
	if len(text) == 0 {
		return nil, 0
	}
	// A string begins with its pointer; unsafe.StringData is of Go 1.20.
	return *(**C.char)(unsafe.Pointer(&text)), C.size_t(len(text))
}

// list is a block of the library as a slice; without items there is none.
func list[T any](at *T, count C.size_t) []T {
	if count == 0 {
		return nil
	}
	return unsafe.Slice(at, int(count))
}

func read(text C.cedar_text) string {
	return string(list((*byte)(unsafe.Pointer(text.at)), text.len))
}

// written is the text of an answer, which is freed.
func written(answer *C.cedar_answer) (string, error) {
	defer C.cedar_answer_free(answer)
	if err := refusal(answer); err != nil {
		return "", err
	}
	return read(answer.text), nil
}

func refusal(answer *C.cedar_answer) error {
	switch answer.status {
	case C.CEDAR_OK:
		return nil
	case C.CEDAR_FAULTS:
		faults := &Faults{}
		for _, fault := range list(answer.faults, answer.fault_count) {
			faults.List = append(faults.List, faultOf(fault))
		}
		return faults
	case C.CEDAR_NOT_UTF8:
		return ErrNotUTF8
	}
	return ErrMemory
}

func positionOf(at C.cedar_position) Position {
	return Position{int(at.line), int(at.column), int(at.utf16_column)}
}

func placeOf(at C.cedar_range) Place {
	return Place{int(at.start), int(at.end), positionOf(at.from), positionOf(at.to)}
}

func scopeOf(scope C.cedar_scope) Scope {
	told := Scope{Op: read(scope.op), Type: read(scope._type), IsSlot: bool(scope.is_slot)}
	for _, entity := range list(scope.entities, scope.entity_count) {
		told.Entities = append(told.Entities, Entity{read(entity._type), read(entity.id)})
	}
	return told
}

func policyOf(policy C.cedar_policy) Policy {
	told := Policy{
		ID: read(policy.id), Printed: read(policy.printed), Annotations: map[string]string{},
		Principal: scopeOf(policy.principal), Action: scopeOf(policy.action),
		Resource: scopeOf(policy.resource), Place: placeOf(policy.place),
		IsTemplate: bool(policy.is_template), IsForbid: bool(policy.is_forbid),
	}
	for _, annotation := range list(policy.annotations, policy.annotation_count) {
		told.Annotations[read(annotation.key)] = read(annotation.value)
	}
	return told
}

func faultOf(fault C.cedar_fault) Fault {
	told := Fault{
		Kind: read(fault.kind), Message: read(fault.message), Label: read(fault.label),
		Help: read(fault.help), Place: placeOf(fault.place), Cause: placeOf(fault.cause),
		HasPlace: bool(fault.has_place), Follows: bool(fault.follows),
	}
	for _, name := range list(fault.expected, fault.expected_count) {
		told.Expected = append(told.Expected, read(name))
	}
	for _, other := range list(fault.related, fault.related_count) {
		told.Related = append(told.Related, Related{placeOf(other.place), read(other.text)})
	}
	return told
}
