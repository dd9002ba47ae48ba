/* Reads frames from a table, each as a packet and as a LAN message, and prints a sum of all that was read: the layouts of
 * crates/asf_rmcp, checked in the same order. */
#include <stdint.h>
#include <stdio.h>
#include <stdlib.h>
#include <string.h>

enum why { SHORT = 1, VERSION, CLASS, ENTERPRISE, KIND, AUTH, SESSION, LENGTH, TRAILING, CHECKSUM };

struct fault { enum why why; size_t at; uint8_t want, have; };
enum kind { ACK, PING, PONG, IPMI };
struct packet { enum kind kind; uint8_t sequence, other, entities; };
struct message { uint8_t to, netfn_lun, sender, seq_lun, cmd; size_t length; uint8_t payload[64]; };

static const uint8_t enterprise[4] = {0x00, 0x00, 0x11, 0xBE};
static const uint8_t no_session[8];

static int refuse(struct fault *f, enum why why, size_t at) { f->why = why; f->at = at; return 0; }

static int header(const uint8_t *octets, size_t length, struct fault *f)
{
    if (length < 1) return refuse(f, SHORT, length);
    if (octets[0] != 6) return refuse(f, VERSION, 0);
    if (length < 4) return refuse(f, SHORT, length);
    if ((octets[3] & 0x7F) != 6 && (octets[3] & 0x7F) != 7) return refuse(f, CLASS, 3);
    return 1;
}

__attribute__((noinline, noclone)) static int packet_read(const uint8_t *octets, size_t length, struct packet *p, struct fault *f)
{
    if (!header(octets, length, f)) return 0;
    p->sequence = octets[2];
    if (octets[3] & 0x80) {
        if (length > 4) return refuse(f, TRAILING, 4);
        p->kind = ACK;
        p->other = octets[3] & 0x7F;
        p->entities = 0;
        return 1;
    }
    if (octets[3] == 7) {
        p->kind = IPMI;
        return 1;
    }
    if (length < 8) return refuse(f, SHORT, length);
    if (memcmp(octets + 4, enterprise, 4)) return refuse(f, ENTERPRISE, 4);
    if (length < 9) return refuse(f, SHORT, length);
    if (octets[8] != 0x80 && octets[8] != 0x40) return refuse(f, KIND, 8);
    if (length < 12) return refuse(f, SHORT, length);
    size_t wanted = octets[8] == 0x40 ? 16 : 0;
    if (octets[11] != wanted) return refuse(f, LENGTH, 11);
    if (length < 12 + wanted) return refuse(f, SHORT, length);
    if (length > 12 + wanted) return refuse(f, TRAILING, 12 + wanted);
    p->kind = wanted ? PONG : PING;
    p->other = octets[9];
    p->entities = wanted ? octets[20] : 0;
    return 1;
}

static int checked(const uint8_t *part, size_t length, uint8_t have, size_t at, struct fault *f)
{
    uint8_t sum = 0;
    for (size_t i = 0; i < length; i++) sum += part[i];
    uint8_t want = -sum;
    if (have == want) return 1;
    f->want = want;
    f->have = have;
    return refuse(f, CHECKSUM, at);
}

__attribute__((noinline, noclone)) static int lan_read(const uint8_t *octets, size_t length, struct message *m, struct fault *f)
{
    if (!header(octets, length, f)) return 0;
    if (octets[3] != 7) return refuse(f, CLASS, 3);
    if (length < 5) return refuse(f, SHORT, length);
    if (octets[4] != 0) return refuse(f, AUTH, 4);
    if (length < 13) return refuse(f, SHORT, length);
    if (memcmp(octets + 5, no_session, 8)) return refuse(f, SESSION, 5);
    if (length < 14) return refuse(f, SHORT, length);
    size_t n = octets[13];
    if (n < 7 || n > 71) return refuse(f, LENGTH, 13);
    if (length < 14 + n) return refuse(f, SHORT, length);
    if (length > 15 + n) return refuse(f, TRAILING, 15 + n);
    if (!checked(octets + 14, 2, octets[16], 16, f)) return 0;
    if (!checked(octets + 17, n - 4, octets[13 + n], 13 + n, f)) return 0;
    m->to = octets[14];
    m->netfn_lun = octets[15];
    m->sender = octets[17];
    m->seq_lun = octets[18];
    m->cmd = octets[19];
    m->length = n - 7;
    memcpy(m->payload, octets + 20, n - 7);
    return 1;
}

enum { FRAMES = 128 };
struct frame { uint8_t octets[96]; size_t length; };

static uint32_t next(uint32_t number) { return number * 1664525u + 1013904223u; }

static uint8_t rest_of(const uint8_t *octets, size_t length)
{
    uint8_t sum = 0;
    for (size_t i = 0; i < length; i++) sum -= octets[i];
    return sum;
}

static struct frame lan(uint32_t start)
{
    struct frame f = {{0}, 0};
    uint32_t n = 7 + (start >> 16) % 65, number = start;
    for (uint32_t i = 14; i < 14 + n; i++) {
        number = next(number);
        f.octets[i] = (uint8_t)(number >> 24);
    }
    f.octets[0] = 0x06;
    f.octets[2] = 0xFF;
    f.octets[3] = 0x07;
    f.octets[13] = (uint8_t)n;
    f.octets[16] = rest_of(f.octets + 14, 2);
    f.octets[13 + n] = rest_of(f.octets + 17, n - 4);
    f.length = 14 + n;
    return f;
}

static struct frame asf(uint32_t start, uint8_t kind)
{
    struct frame f = {{0}, 0};
    uint32_t number = start;
    for (int i = 0; i < 28; i++) {
        number = next(number);
        f.octets[i] = (uint8_t)(number >> 24);
    }
    f.octets[0] = 0x06;
    f.octets[3] = 0x06;
    memcpy(f.octets + 4, enterprise, 4);
    f.octets[8] = kind;
    f.octets[11] = kind == 0x40 ? 16 : 0;
    f.length = kind == 0x40 ? 28 : 12;
    return f;
}

/* six of eight are LAN messages, then a ping and a pong; every fifth has one octet that is changed */
static struct frame frame(uint32_t place, uint32_t start)
{
    struct frame f = place % 8 == 6 ? asf(start, 0x80) : place % 8 == 7 ? asf(start, 0x40) : lan(start);
    if (place % 5 == 4) f.octets[(start >> 8) % f.length] ^= 0x01;
    return f;
}

static uint64_t fault(const struct fault *f)
{
    uint64_t why = f->why;
    if (f->why == CHECKSUM) why += (uint8_t)(f->want ^ f->have);
    return why + f->at % 1024;
}

int main(int argc, char **argv)
{
    static struct frame frames[FRAMES];
    uint32_t rounds = argc > 1 ? (uint32_t)strtoul(argv[1], 0, 10) : 1, number = rounds;
    for (uint32_t place = 0; place < FRAMES; place++) {
        number = next(number);
        frames[place] = frame(place, number);
    }
    uint64_t sum = 0;
    for (uint32_t round = 0; round < rounds; round++) {
        for (size_t i = 0; i < FRAMES; i++) {
            struct packet p;
            struct message m;
            struct fault f = {0};
            uint64_t packet, message;
            if (packet_read(frames[i].octets, frames[i].length, &p, &f))
                packet = p.kind == IPMI ? p.sequence : (uint8_t)(p.sequence ^ p.other ^ p.entities);
            else
                packet = fault(&f);
            if (lan_read(frames[i].octets, frames[i].length, &m, &f))
                message = (uint8_t)(m.to ^ m.netfn_lun ^ m.sender ^ m.seq_lun ^ m.cmd ^ (m.length ? m.payload[sum % m.length] : 0)) + m.length;
            else
                message = fault(&f);
            sum = sum * 31 + packet + message;
        }
    }
    printf("%llu\n", (unsigned long long)sum);
    return 0;
}
