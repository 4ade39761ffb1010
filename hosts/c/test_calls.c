/* Each call on its happy path, each status, and what a C caller may pass. */
#include "testing.h"

static const char two[] =
    "@note @id(\"a\\u{e9}\")\n"
    "permit(principal == ?principal, action, resource in (?resource)); // one\n"
    "forbid(principal is A::U in G::\"g\\n\", action in [Action::\"x\", A::Action::\"y\"], resource,);";

static void policies(void) {
    cedar_answer answer = CEDAR_ANSWER_INIT;
    cedar_parse_policies(two, strlen(two), &answer);
    WANT(answer.status == CEDAR_OK && answer.policy_count == 2);
    WANT(!answer.fault_count && !answer.faults && !answer.text.len && answer.text.at);
    const cedar_policy *first = answer.policies, *second = first + 1;
    WANT(is(first->id, "policy0") && first->is_template && !first->is_forbid);
    WANT(first->annotation_count == 2 && is(first->annotations[0].key, "id"));
    WANT(is(first->annotations[0].value, "a\xC3\xA9"));
    WANT(is(first->annotations[1].key, "note") && is(first->annotations[1].value, ""));
    WANT(is(first->principal.op, "==") && first->principal.is_slot && !first->principal.entity_count);
    WANT(is(first->action.op, "All") && !first->action.is_slot && !first->action.entities);
    WANT(is(first->resource.op, "in") && first->resource.is_slot && is(first->resource.type, ""));
    WANT(first->place.start == 0 && first->place.end == (size_t)(strchr(two, '/') - two) - 1);
    WANT(first->place.from.line == 1 && first->place.from.column == 1 && first->place.to.line == 2);
    WANT(is(second->id, "policy1") && !second->is_template && second->is_forbid);
    WANT(!second->annotation_count && !second->annotations);
    WANT(is(second->principal.op, "is") && is(second->principal.type, "A::U") && !second->principal.is_slot);
    WANT(second->principal.entity_count == 1 && is(second->principal.entities[0].type, "G"));
    WANT(is(second->principal.entities[0].id, "g\n"));
    WANT(is(second->action.op, "in") && second->action.entity_count == 2);
    WANT(is(second->action.entities[1].type, "A::Action") && is(second->action.entities[1].id, "y"));
    WANT(is(second->resource.op, "All"));
    WANT(second->place.from.line == 3 && second->place.end == strlen(two));
    WANT(is(second->printed, "forbid ( principal is A :: U in G :: \"g\\n\" , "
                             "action in [ Action :: \"x\" , A :: Action :: \"y\" ] , resource ) ;"));
    cedar_answer_free(&answer);
    WANT(!answer.policies && !answer.policy_count);
    cedar_answer_free(&answer); /* an answer that holds nothing */
    cedar_answer_free(NULL);    /* no answer */
}

/* A 0 in a text neither ends it nor what is told of it. */
static void zeros(void) {
    cedar_answer answer = CEDAR_ANSWER_INIT;
    const char *text = "permit(principal == A::\"a\\0b\", action, resource);";
    cedar_parse_policies(text, strlen(text), &answer);
    WANT(answer.status == CEDAR_OK && answer.policies[0].principal.entity_count == 1);
    cedar_text id = answer.policies[0].principal.entities[0].id;
    WANT(id.len == 3 && !memcmp(id.at, "a\0b", 3));
    cedar_answer_free(&answer);
    static const char with_zero[] = "// a\0b\npermit(principal,action,resource);";
    cedar_layout_policies(with_zero, sizeof with_zero - 1, 80, 2, &answer);
    WANT(answer.status == CEDAR_OK && answer.text.len > 8 && !memcmp(answer.text.at, with_zero, 8));
    cedar_answer_free(&answer);
    cedar_parse_expression("1\0", 2, &answer);
    WANT(answer.status == CEDAR_FAULTS && answer.fault_count == 1 && answer.faults[0].place.start == 1);
    cedar_answer_free(&answer);
}

static void faults(void) {
    cedar_answer answer = CEDAR_ANSWER_INIT;
    const char *text = "permit(principal, action, resource) when { \"\xF0\x9F\x98\x80\xC3\xA9\" == foo(1) };";
    cedar_parse_policies(text, strlen(text), &answer);
    WANT(answer.status == CEDAR_FAULTS && answer.fault_count == 1 && !answer.policies);
    const cedar_fault *fault = answer.faults;
    WANT(is(fault->kind, "UnknownFunction") && is(fault->message, "`foo` is not a valid function"));
    WANT(fault->has_place && !fault->follows && !fault->expected && !fault->related);
    WANT(fault->place.start == 55 && fault->place.from.line == 1);
    WANT(fault->place.from.column == 52 && fault->place.from.utf16_column == 53);
    cedar_answer_free(&answer);
    text = "permit(principal action);";
    cedar_parse_policies(text, strlen(text), &answer);
    WANT(answer.status == CEDAR_FAULTS && answer.fault_count == 1);
    fault = answer.faults;
    WANT(is(fault->kind, "UnrecognizedToken") && is(fault->message, "unexpected token `action`"));
    WANT(fault->expected_count > 3 && is(fault->label, "expected an operator, `)`, `,` or `:`"));
    WANT(fault->place.start == 17 && fault->place.end == 23);
    cedar_answer_free(&answer);
    text = "permit(principal = User::\"a\", action, resource);";
    cedar_parse_policies(text, strlen(text), &answer);
    WANT(answer.fault_count == 1 && is(answer.faults[0].help, "write `==`") && is(answer.faults[0].label, ""));
    WANT(answer.faults[0].cause.start == 17 && answer.faults[0].cause.end == 18);
    cedar_answer_free(&answer);
    text = "permit(principal, action, resource) when { (1 };";
    cedar_parse_policies(text, strlen(text), &answer);
    WANT(answer.fault_count == 1 && answer.faults[0].related_count == 1);
    WANT(is(answer.faults[0].related[0].text, "`(` opened here"));
    WANT(answer.faults[0].related[0].place.start == 43 && answer.faults[0].related[0].place.end == 44);
    cedar_answer_free(&answer);
    text = "1 + \xC3\xA9";
    cedar_parse_expression(text, strlen(text), &answer);
    WANT(answer.status == CEDAR_FAULTS && answer.fault_count == 1 && is(answer.faults[0].kind, "InvalidToken"));
    cedar_answer_free(&answer);
    text = "foo(1) && bar(2)";
    cedar_parse_expression(text, strlen(text), &answer);
    WANT(answer.status == CEDAR_FAULTS && answer.fault_count == 2);
    cedar_answer_free(&answer);
}

static void texts(void) {
    cedar_answer answer = CEDAR_ANSWER_INIT;
    cedar_parse_expression("ip(\"::1\").isIpv4()", 18, &answer);
    WANT(answer.status == CEDAR_OK && is(answer.text, "ip ( \"::1\" ) . isIpv4 ( )"));
    cedar_answer_free(&answer);
    const char *text = "// all\npermit(principal,action,resource);";
    cedar_format_policies(text, strlen(text), &answer);
    WANT(answer.status == CEDAR_OK && is(answer.text, "permit ( principal , action , resource ) ;\n"));
    cedar_answer_free(&answer);
    cedar_write_policies(text, strlen(text), &answer);
    WANT(answer.status == CEDAR_OK && is(answer.text, "permit (principal, action, resource);\n"));
    cedar_answer_free(&answer);
    text = "@b(\"1\") @a permit(principal,action,resource) when { ((1) + (2)) == 3 } unless { !(true && false) };";
    cedar_write_policies(text, strlen(text), &answer);
    WANT(answer.status == CEDAR_OK);
    WANT(is(answer.text, "@a(\"\") @b(\"1\") permit (principal, action, resource) "
                         "when { 1 + 2 == 3 } unless { !(true && false) };\n"));
    cedar_answer_free(&answer);
    text = "permit(principal, action, resource) when { foo(1) };";
    cedar_write_policies(text, strlen(text), &answer);
    WANT(answer.status == CEDAR_FAULTS && answer.fault_count == 1 && !answer.text.len);
    cedar_answer_free(&answer);
    text = "// all\npermit(principal,action,resource);";
    cedar_layout_policies(text, strlen(text), 80, 2, &answer);
    WANT(answer.status == CEDAR_OK && is(answer.text, "// all\npermit (principal, action, resource);\n"));
    cedar_answer_free(&answer);
    cedar_layout_policies(text, strlen(text), 20, 4, &answer);
    WANT(answer.status == CEDAR_OK && answer.text.len > 40);
    WANT(!memcmp(answer.text.at, "// all\npermit (\n    principal,\n", 30));
    cedar_answer_free(&answer);
    cedar_layout_policies("permit(a);", 10, 80, 2, &answer); /* it has a tree, and no meaning */
    WANT(answer.status == CEDAR_OK && is(answer.text, "permit (a);\n"));
    cedar_answer_free(&answer);
    cedar_layout_policies("permit(", 7, 80, 2, &answer);
    WANT(answer.status == CEDAR_FAULTS && answer.fault_count == 1);
    cedar_answer_free(&answer);
}

static void what_may_be_passed(void) {
    for (int which = 0; which < CALLS; which++) {
        cedar_answer answer = CEDAR_ANSWER_INIT;
        call(which, NULL, 0, &answer);
        WANT(answer.status == (which == PARSE_EXPRESSION ? CEDAR_FAULTS : CEDAR_OK));
        WANT(!answer.policies && !answer.text.len);
        cedar_answer_free(&answer);
        call(which, "", 0, &answer);
        WANT(answer.status == (which == PARSE_EXPRESSION ? CEDAR_FAULTS : CEDAR_OK));
        cedar_answer_free(&answer);
        call(which, "\xff", 1, &answer);
        WANT(answer.status == CEDAR_NOT_UTF8 && !answer.faults && !answer.policies);
        cedar_answer_free(&answer);
    }
}

static void positions(void) {
    cedar_position at;
    WANT(cedar_position_of("a\n\xF0\x9F\x98\x80x", 7, 6, &at) == CEDAR_OK);
    WANT(at.line == 2 && at.column == 2 && at.utf16_column == 3);
    WANT(cedar_position_of("a\nb", 3, 99, &at) == CEDAR_OK && at.line == 2 && at.column == 2);
    WANT(cedar_position_of(NULL, 0, 0, &at) == CEDAR_OK && at.line == 1 && at.column == 1);
    WANT(cedar_position_of("\xff", 1, 0, &at) == CEDAR_NOT_UTF8 && !at.line && !at.utf16_column);
}

int main(void) {
    WANT(cedar_is_abi() && cedar_abi() == CEDAR_ABI);
    policies();
    zeros();
    faults();
    texts();
    what_may_be_passed();
    positions();
    return 0;
}
