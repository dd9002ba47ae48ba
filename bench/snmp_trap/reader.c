/* Reads one trap message many times: the grammar of crates/snmp_trap, checked in the same order. */
#include <stdint.h>
#include <stdio.h>
#include <stdlib.h>
#include <string.h>

enum why { NOTHING, TRUNCATED, TAG, LENGTH, OVER, TRAILING, INTEGER, VERSION, ENTERPRISE, GENERIC, NO_BINDING, BODY };

struct refusal { enum why why; size_t at; };
struct span { const uint8_t *octets; size_t length; size_t at; };
struct element { size_t at; struct span inside; };
struct view {
    const uint8_t *community; size_t community_length;
    uint8_t agent[4];
    uint32_t specific, ticks;
    const uint8_t *body; size_t body_length;
};

static const uint8_t enterprise_name[9] = {0x2B, 0x06, 0x01, 0x04, 0x01, 0x98, 0x6F, 0x01, 0x01};
static const uint8_t body_name[10] = {0x2B, 0x06, 0x01, 0x04, 0x01, 0x98, 0x6F, 0x01, 0x01, 0x01};

static int refuse(struct refusal *r, enum why why, size_t at) { r->why = why; r->at = at; return 0; }

/* wanted: a tag, or -1 for any whose low five bits aren't all 1 */
static int element(struct span *rest, int wanted, struct element *e, struct refusal *r, enum why past, size_t past_at)
{
    if (rest->length == 0) return refuse(r, past, past_at);
    uint8_t tag = rest->octets[0];
    if (wanted >= 0 ? tag != wanted : (tag & 31) == 31) return refuse(r, TAG, rest->at);
    if (rest->length == 1) return refuse(r, past, past_at);
    uint8_t first = rest->octets[1];
    size_t header = 2, length;
    if (first < 0x80) {
        length = first;
    } else {
        if (first == 0x80 || first > 0x84) return refuse(r, LENGTH, rest->at + 1);
        size_t count = first - 0x80;
        if (rest->length - 2 < count) return refuse(r, past, past_at);
        length = 0;
        for (size_t i = 0; i < count; i++) length = length << 8 | rest->octets[2 + i];
        header += count;
    }
    if (rest->length - header < length) return refuse(r, past, past_at);
    e->at = rest->at;
    e->inside = (struct span){rest->octets + header, length, rest->at + header};
    *rest = (struct span){rest->octets + header + length, rest->length - header - length, rest->at + header + length};
    return 1;
}

static int inner(struct span *rest, int wanted, struct element *e, struct refusal *r)
{
    return element(rest, wanted, e, r, OVER, rest->at);
}

static int ended(const struct span *rest, struct refusal *r)
{
    return rest->length == 0 ? 1 : refuse(r, TRAILING, rest->at);
}

static int number(const struct element *e, uint32_t *n, struct refusal *r)
{
    if (e->inside.length == 0 || e->inside.length > 5) return refuse(r, INTEGER, e->at);
    uint64_t value = 0;
    for (size_t i = 0; i < e->inside.length; i++) value = value << 8 | e->inside.octets[i];
    if (value >> 32) return refuse(r, INTEGER, e->at);
    *n = (uint32_t)value;
    return 1;
}

static int decode(const uint8_t *octets, size_t length, struct view *v, struct refusal *r)
{
    struct span input = {octets, length, 0};
    struct element message, e, trap, list, binding;
    uint32_t n;
    if (!element(&input, 0x30, &message, r, TRUNCATED, length)) return 0;
    struct span rest = message.inside;
    if (!inner(&rest, 0x02, &e, r) || !number(&e, &n, r)) return 0;
    if (n != 0) return refuse(r, VERSION, e.at);
    if (!inner(&rest, 0x04, &e, r)) return 0;
    v->community = e.inside.octets;
    v->community_length = e.inside.length;
    if (!inner(&rest, 0xA4, &trap, r)) return 0;
    struct span part = trap.inside;
    if (!inner(&part, 0x06, &e, r)) return 0;
    if (e.inside.length != 9 || memcmp(e.inside.octets, enterprise_name, 9)) return refuse(r, ENTERPRISE, e.at);
    if (!inner(&part, 0x40, &e, r)) return 0;
    if (e.inside.length != 4) return refuse(r, LENGTH, e.at + 1);
    memcpy(v->agent, e.inside.octets, 4);
    if (!inner(&part, 0x02, &e, r) || !number(&e, &n, r)) return 0;
    if (n != 6) return refuse(r, GENERIC, e.at);
    if (!inner(&part, 0x02, &e, r) || !number(&e, &v->specific, r)) return 0;
    if (!inner(&part, 0x43, &e, r) || !number(&e, &v->ticks, r)) return 0;
    if (!inner(&part, 0x30, &list, r)) return 0;
    struct span bindings = list.inside;
    int found = 0;
    while (bindings.length) {
        if (!inner(&bindings, 0x30, &binding, r)) return 0;
        struct span held = binding.inside;
        if (!inner(&held, 0x06, &e, r)) return 0;
        int counts = !found && e.inside.length == 10 && !memcmp(e.inside.octets, body_name, 10);
        if (!inner(&held, counts ? 0x04 : -1, &e, r)) return 0;
        if (counts) {
            if (e.inside.length < 46 || e.inside.length > 110) return refuse(r, BODY, e.at);
            v->body = e.inside.octets;
            v->body_length = e.inside.length;
            found = 1;
        }
        if (!ended(&held, r)) return 0;
    }
    if (!found) return refuse(r, NO_BINDING, list.at);
    return ended(&part, r) && ended(&rest, r) && ended(&input, r);
}

int main(void)
{
    uint8_t octets[108] = {
        0x30, 0x6A, 0x02, 0x01, 0x00, 0x04, 0x06, 0x70, 0x75, 0x62, 0x6C, 0x69, 0x63, 0xA4, 0x5D, 0x06,
        0x09, 0x2B, 0x06, 0x01, 0x04, 0x01, 0x98, 0x6F, 0x01, 0x01, 0x40, 0x04, 0x0A, 0x00, 0x00, 0x02,
        0x02, 0x01, 0x06, 0x02, 0x03, 0x04, 0x01, 0x02, 0x43, 0x01, 0x00, 0x30, 0x3F, 0x30, 0x3D, 0x06,
        0x0A, 0x2B, 0x06, 0x01, 0x04, 0x01, 0x98, 0x6F, 0x01, 0x01, 0x01, 0x04, 0x2F, 0x00, 0x11, 0x22,
        0x33, 0x44, 0x55, 0x66, 0x77, 0x88, 0x99, 0xAA, 0xBB, 0xCC, 0xDD, 0xEE, 0xFF, 0x00, 0x01, 0x06,
        0xEF, 0xED, 0x80, 0xFF, 0xFF, 0x20, 0x20, 0x10, 0x20, 0x30, 0x00, 0x00, 0x52, 0x10, 0x20, 0x00,
        0x00, 0x00, 0x00, 0x00, 0xFF, 0x00, 0x01, 0x86, 0x9F, 0x00, 0x01, 0xC1,
    };
    uint64_t sum = 0;
    for (uint32_t i = 0; i < 20000000; i++) {
        struct view v;
        struct refusal r;
        octets[42] = i % 128;
        if (decode(octets, 108, &v, &r))
            sum += v.ticks + v.specific + v.agent[3] + v.community_length + v.body_length + v.body[0];
    }
    printf("%llu\n", (unsigned long long)sum);
    return 0;
}
