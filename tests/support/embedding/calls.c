/*
 * Makes the calls that lines of standard input ask for, and writes what each answered, a line each.
 * calls.rs and calls.py answer the same lines by the bindings. Each array is as long as is said, so
 * that a sanitizer sees an access beyond it.
 */
#include <inttypes.h>
#include <stdarg.h>
#include <stdio.h>
#include <stdlib.h>
#include <string.h>

#include "tombolopan.h"

static tb_page *pages;
static size_t place_count;
static tb_tag_state state;
static tb_regs regs;
static char *rest; /* what is not read yet of the line */

/* An array of zero bytes, which is never null. */
static void *take(size_t count, size_t each) {
    void *it = calloc(1, count * each > 0 ? count * each : 1);
    if (it == NULL)
        exit(9);
    return it;
}

static const char *word(void) {
    char *it = rest;
    rest += strcspn(rest, " ");
    if (*rest != 0)
        *rest++ = 0;
    return it;
}

static uint64_t number(void) {
    return strtoull(word(), NULL, 0);
}

/* The bytes of a word of hexadecimal digits; "-" is none. */
static tb_bytes bytes(void) {
    const char *it = word();
    tb_bytes found;
    const size_t count = *it == '-' ? 0 : strlen(it) / 2;
    uint8_t *made = (uint8_t *)take(count, 1);
    for (size_t i = 0; i < count; i++) {
        const char digits[3] = {it[2 * i], it[2 * i + 1], 0};
        made[i] = (uint8_t)strtoul(digits, NULL, 16);
    }
    found.bytes = made;
    found.length = count;
    return found;
}

static void drop(tb_bytes it) {
    free((void *)it.bytes);
}

static void tell_bytes(const uint8_t *it, size_t count) {
    printf(" ");
    for (size_t i = 0; i < count; i++)
        printf("%02x", it[i]);
    if (count == 0)
        printf("-");
}

static void tell(size_t count, ...) {
    va_list all;
    va_start(all, count);
    for (size_t i = 0; i < count; i++)
        printf(" %" PRIx64, va_arg(all, uint64_t));
    va_end(all);
}

static void tell_fault(const tb_fault *it) {
    tell(5, it->addr, (uint64_t)it->kind, (uint64_t)it->write, (uint64_t)it->ptr_tag,
         (uint64_t)it->mem_tag);
}

static void tell_stop(uint32_t code, const tb_stop *it) {
    tell(4, (uint64_t)code, it->left, (uint64_t)it->code, (uint64_t)it->number);
    tell_fault(&it->fault);
}

/* A fault with a byte of its own everywhere, so that a field which is not written is seen. */
static tb_fault filled_fault(void) {
    tb_fault it;
    memset(&it, 0xee, sizeof it);
    return it;
}

static void make_places(void) {
    free(pages);
    place_count = (size_t)number();
    pages = (tb_page *)take(place_count, sizeof(tb_page));
    tb_memory_init(pages, place_count, &state, number() != 0);
    tell(2, (uint64_t)state.asynchronous, (uint64_t)state.pending);
}

static void access_bytes(bool is_write) {
    tb_fault fault = filled_fault();
    const uint64_t addr = number();
    const bool check = number() != 0;
    if (is_write) {
        const tb_bytes it = bytes();
        tell(1, (uint64_t)tb_write(pages, place_count, &state, addr, it.bytes, it.length, check,
                                   &fault));
        tell_fault(&fault);
        drop(it);
    } else {
        const size_t length = (size_t)number();
        uint8_t *buffer = (uint8_t *)take(length, 1);
        tell(1, (uint64_t)tb_read(pages, place_count, &state, addr, buffer, length, check, &fault));
        tell_fault(&fault);
        tell_bytes(buffer, length);
        free(buffer);
    }
    tell(1, (uint64_t)state.pending);
}

static void load(void) {
    const uint64_t addr = number();
    const tb_bytes it = bytes();
    tell(1, (uint64_t)tb_load(pages, place_count, &state, addr, it.bytes, it.length));
    drop(it);
}

static void load_tag(void) {
    tb_fault fault = filled_fault();
    uint8_t tag = 0xee;
    tell(1, (uint64_t)tb_load_tag(pages, place_count, &state, number(), &tag, &fault));
    tell(1, (uint64_t)tag);
    tell_fault(&fault);
}

static void store_tags(void) {
    tb_fault fault = filled_fault();
    tb_tag_store store = {number(), 0, 0, 0};
    store.granules = number();
    store.tag = (uint32_t)number();
    store.zero = (uint32_t)number();
    tell(1, (uint64_t)tb_store_tags(pages, place_count, &state, &store, &fault));
    tell_fault(&fault);
}

/* Sets x0 to x30, sp, pc, nzcv, rgsr_seed and rgsr_tag. */
static void set_registers(void) {
    for (size_t i = 0; i < 31; i++)
        regs.x[i] = number();
    regs.sp = number();
    regs.pc = number();
    regs.nzcv = (uint32_t)number();
    regs.rgsr_seed = (uint16_t)number();
    regs.rgsr_tag = (uint16_t)number();
}

static void tell_registers(void) {
    for (size_t i = 0; i < 31; i++)
        tell(1, regs.x[i]);
    tell(5, regs.sp, regs.pc, (uint64_t)regs.nzcv, (uint64_t)regs.rgsr_seed,
         (uint64_t)regs.rgsr_tag);
}

static void step_or_run(char kind) {
    tb_stop stop;
    uint32_t code;
    memset(&stop, 0xee, sizeof stop);
    if (kind == 's') {
        code = tb_step(pages, place_count, &state, &regs, &stop);
    } else if (kind == 'r') {
        code = tb_run(pages, place_count, &state, &regs, number(), &stop);
    } else {
        const uint64_t steps = number();
        const size_t count = (size_t)number();
        uint64_t *stops = (uint64_t *)take(count, sizeof(uint64_t));
        for (size_t i = 0; i < count; i++)
            stops[i] = number();
        code = tb_run_until(pages, place_count, &state, &regs, steps, stops, count, &stop);
        free(stops);
    }
    tell_stop(code, &stop);
}

static void trace(bool is_step) {
    tb_stop stop;
    tb_accesses accesses;
    const uint64_t steps = is_step ? 1 : number();
    uint32_t code;
    memset(&stop, 0xee, sizeof stop);
    accesses.room = (size_t)number();
    accesses.count = 0;
    accesses.entries = (tb_access *)take(accesses.room, sizeof(tb_access));
    code = is_step ? tb_trace_step(pages, place_count, &state, &regs, &accesses, &stop)
                   : tb_trace(pages, place_count, &state, &regs, steps, &accesses, &stop);
    tell_stop(code, &stop);
    for (size_t i = 0; i < accesses.count; i++) {
        const tb_access *it = &accesses.entries[i];
        printf(" |");
        tell(8, it->pc, it->addr, it->value[0], it->value[1], (uint64_t)it->word,
             (uint64_t)it->size, (uint64_t)it->write, (uint64_t)it->mem_tag);
    }
    free(accesses.entries);
}

static void tell_attributes(void) {
    for (size_t i = 0; i < place_count; i++)
        tell(1, (uint64_t)pages[i].attrs);
}

/* A place: its number, whether it is mapped, its attributes, and sums of its bytes and tags. */
static void tell_place(void) {
    const tb_page *it = &pages[number()];
    uint64_t sum = 0, tags = 0;
    for (size_t i = 0; i < sizeof it->bytes; i++)
        sum += it->bytes[i] * (i + 1);
    for (size_t i = 0; i < sizeof it->tags; i++)
        tags += it->tags[i] * (i + 1);
    tell(5, it->number, (uint64_t)it->mapped, (uint64_t)it->attrs, sum, tags);
}

static tb_heap_setup read_setup(void) {
    tb_heap_setup setup;
    setup.cookie = (uint32_t)number();
    setup.pages = (uint32_t)number();
    setup.asynchronous = (uint32_t)number();
    setup.rgsr_seed = (uint16_t)number();
    setup.rgsr_tag = (uint16_t)number();
    return setup;
}

static void heap_calls(void) {
    const tb_heap_setup setup = read_setup();
    const size_t count = (size_t)number();
    tb_heap_call *calls = (tb_heap_call *)take(count, sizeof(tb_heap_call));
    for (size_t i = 0; i < count; i++) {
        calls[i].op = (uint32_t)number();
        calls[i].first = number();
        calls[i].second = number();
    }
    tell(1, (uint64_t)tb_heap_calls(&setup, calls, count));
    for (size_t i = 0; i < count; i++) {
        printf(" |");
        tell(5, (uint64_t)calls[i].op, (uint64_t)calls[i].code, calls[i].first, calls[i].second,
             calls[i].answer);
        tell_fault(&calls[i].fault);
    }
    free(calls);
}

static tb_heap_step *read_steps(size_t count) {
    tb_heap_step *steps = (tb_heap_step *)take(count, sizeof(tb_heap_step));
    for (size_t i = 0; i < count; i++) {
        steps[i].call.op = (uint32_t)number();
        steps[i].call.first = number();
        steps[i].call.second = number();
        steps[i].first_of = (uint32_t)number();
        steps[i].second_of = (uint32_t)number();
    }
    return steps;
}

static void heap_pages(bool is_checked) {
    const tb_heap_setup setup = read_setup();
    const size_t room = (size_t)number(), count = (size_t)number();
    uint64_t mapped = 0xee, bad = 0xee, sum = 0;
    tb_heap_step *steps = read_steps(count);
    tb_page_entry *pages = (tb_page_entry *)take(room, sizeof(tb_page_entry));
    tell(1, (uint64_t)(is_checked ? tb_checked_heap_pages(&setup, steps, count, pages, room,
                                                          &mapped, &bad)
                                  : tb_heap_pages(&setup, steps, count, pages, room, &mapped,
                                                  &bad)));
    for (size_t i = 0; i < room && i < mapped; i++)
        sum += pages[i].number * 16 + pages[i].attrs;
    tell(3, mapped, bad, sum);
    for (size_t i = 0; i < count; i++)
        tell(2, (uint64_t)steps[i].call.code, steps[i].call.answer);
    free(steps);
    free(pages);
}

static void tell_live(const tb_heap_step *steps, size_t count, size_t room, bool is_checked) {
    uint64_t live = 0xee;
    tb_live_chunk *chunks = (tb_live_chunk *)take(room, sizeof(tb_live_chunk));
    tell(1, (uint64_t)(is_checked ? tb_checked_heap_live(steps, count, chunks, room, &live)
                                  : tb_heap_live(steps, count, chunks, room, &live)));
    tell(1, live);
    for (size_t i = 0; i < room && i < live; i++)
        tell(5, chunks[i].address, chunks[i].size, chunks[i].call, (uint64_t)chunks[i].tag,
             (uint64_t)chunks[i].unused);
    free(chunks);
}

static void heap_live(bool is_checked) {
    const tb_heap_setup setup = read_setup();
    const size_t room = (size_t)number(), count = (size_t)number();
    uint64_t bad = 0xee;
    tb_heap_step *steps = read_steps(count);
    tell(1, (uint64_t)tb_heap_replay(&setup, steps, count, &bad));
    tell_live(steps, count, room, is_checked);
    free(steps);
}

static void heap_replay(void) {
    const tb_heap_setup setup = read_setup();
    const size_t count = (size_t)number();
    uint64_t bad = 0xee;
    tb_heap_step *steps = read_steps(count);
    tell(1, (uint64_t)tb_heap_replay(&setup, steps, count, &bad));
    tell(1, bad);
    for (size_t i = 0; i < count; i++) {
        const tb_heap_call *it = &steps[i].call;
        printf(" |");
        tell(5, (uint64_t)it->op, (uint64_t)it->code, it->first, it->second, it->answer);
        tell_fault(&it->fault);
        tell(2, (uint64_t)steps[i].first_of, (uint64_t)steps[i].second_of);
    }
    free(steps);
}

/* How far a traced run goes: steps, kinds, both ranges; and then its stops. */
static tb_trace_request read_request(void) {
    tb_trace_request it;
    it.steps = number();
    it.kinds = (uint32_t)number();
    it.code_low = number();
    it.code_high = number();
    it.low = number();
    it.high = number();
    it.unused = 0;
    it.stop_count = (size_t)number();
    uint64_t *stops = (uint64_t *)take(it.stop_count, sizeof(uint64_t));
    for (size_t i = 0; i < it.stop_count; i++)
        stops[i] = number();
    it.stops = stops;
    return it;
}

static void tell_report(uint32_t code, const tb_trace_report *it) {
    tell(6, (uint64_t)code, it->steps, it->instructions, it->accesses, (uint64_t)it->code,
         (uint64_t)it->number);
    tell_fault(&it->fault);
}

static void run_traced(void) {
    tb_trace_report end;
    const size_t most = (size_t)number(), room = (size_t)number();
    const tb_trace_request request = read_request();
    tb_traced_instruction *code =
        (tb_traced_instruction *)take(most, sizeof(tb_traced_instruction));
    tb_traced_access *data = (tb_traced_access *)take(room, sizeof(tb_traced_access));
    tb_trace_arrays entered = {code, most, data, room};
    memset(&end, 0xee, sizeof end);
    tell_report(tb_run_traced(pages, place_count, &state, &regs, &request, &entered, &end), &end);
    for (size_t i = 0; i < end.instructions && i < most; i++) {
        printf(" |");
        tell(4, code[i].step, code[i].pc, (uint64_t)code[i].word, (uint64_t)code[i].unused);
    }
    for (size_t i = 0; i < end.accesses && i < room; i++) {
        printf(" >");
        tell(7, data[i].step, data[i].pc, data[i].addr, data[i].value[0], data[i].value[1],
             (uint64_t)data[i].size, (uint64_t)data[i].kind);
    }
    free(code);
    free(data);
    free((void *)request.stops);
}

static void disassemble(void) {
    const uint32_t it = (uint32_t)number();
    const uint64_t pc = number();
    const size_t room = (size_t)number();
    uint8_t *text = (uint8_t *)take(room, 1);
    memset(text, 0xee, room);
    tell(1, (uint64_t)tb_disassemble(it, pc, text, room));
    tell_bytes(text, room);
    free(text);
}

/* What hostile arguments are answered by: each a code. */
static void be_hostile(void) {
    tb_heap_setup setup = {1, 64, 0, 1, 0};
    tb_heap_step step[2];
    tb_page_entry entries[2];
    tb_live_chunk live[2];
    uint64_t stops[2] = {0, 0}, bad = 0, mapped = 0;
    uint8_t text[8];
    tb_traced_access data[2];
    tb_traced_instruction code[2];
    tb_trace_request request = {stops, 1, 1, 0, ~(uint64_t)0, 0, ~(uint64_t)0, 15, 0};
    tb_trace_report end;
    const size_t huge = ~(size_t)0;
    memset(step, 0, sizeof step);
    tell(2, (uint64_t)tb_checked_disassemble(0, 0, NULL, 8),
         (uint64_t)tb_checked_disassemble(0, 0, text, huge));
    printf(" |");
    tell(4, (uint64_t)tb_checked_heap_replay(NULL, step, 1, &bad),
         (uint64_t)tb_checked_heap_replay(&setup, NULL, 1, &bad),
         (uint64_t)tb_checked_heap_replay(&setup, step, huge, &bad),
         (uint64_t)tb_checked_heap_replay(&setup, step, 1, NULL));
    tell(3, (uint64_t)tb_checked_heap_replay(&setup, step, 1, (uint64_t *)(void *)step),
         (uint64_t)tb_checked_heap_replay((tb_heap_setup *)(void *)step, step, 1, &bad),
         (uint64_t)tb_checked_heap_replay(&setup, step, huge / 64, &bad));
    printf(" |");
#define HEAP_PAGES(s, t, n, p, r, m, b)                                                           \
    tell(1, (uint64_t)tb_checked_heap_pages(s, t, n, p, r, m, b))
    HEAP_PAGES(NULL, step, 1, entries, 2, &mapped, &bad);
    HEAP_PAGES(&setup, NULL, 1, entries, 2, &mapped, &bad);
    HEAP_PAGES(&setup, step, huge, entries, 2, &mapped, &bad);
    HEAP_PAGES(&setup, step, 1, NULL, 0, &mapped, &bad);
    HEAP_PAGES(&setup, step, 1, entries, huge, &mapped, &bad);
    HEAP_PAGES(&setup, step, 1, entries, 2, NULL, &bad);
    HEAP_PAGES(&setup, step, 1, entries, 2, &mapped, NULL);
    HEAP_PAGES(&setup, step, 1, entries, 2, &mapped, &mapped);
    HEAP_PAGES(&setup, step, 1, (tb_page_entry *)(void *)step, 2, &mapped, &bad);
    HEAP_PAGES(&setup, step, 1, entries, 2, &entries[1].number, &bad);
#undef HEAP_PAGES
    tell(6, (uint64_t)tb_checked_heap_live(NULL, 1, live, 2, &mapped),
         (uint64_t)tb_checked_heap_live(step, huge / 64, live, 2, &mapped),
         (uint64_t)tb_checked_heap_live(step, 1, NULL, 0, &mapped),
         (uint64_t)tb_checked_heap_live(step, 1, live, huge, &mapped),
         (uint64_t)tb_checked_heap_live(step, 1, live, 2, NULL),
         (uint64_t)tb_checked_heap_live(step, 1, live, 2, &live[1].call));
    printf(" |");
#define TRACED(p, s, r, q, i, n, a, m, e)                                                         \
    do {                                                                                          \
        tb_trace_arrays entered = {i, n, a, m};                                                   \
        tell(1, (uint64_t)tb_checked_run_traced(p, place_count, s, r, q, &entered, e));           \
    } while (false)
    TRACED(NULL, &state, &regs, &request, code, 2, data, 2, &end);
    TRACED(pages, NULL, &regs, &request, code, 2, data, 2, &end);
    TRACED(pages, &state, NULL, &request, code, 2, data, 2, &end);
    TRACED(pages, &state, &regs, NULL, code, 2, data, 2, &end);
    TRACED(pages, &state, &regs, &request, NULL, 2, data, 2, &end);
    TRACED(pages, &state, &regs, &request, code, huge, data, 2, &end);
    TRACED(pages, &state, &regs, &request, code, 2, NULL, 0, &end);
    TRACED(pages, &state, &regs, &request, code, 2, data, 2, NULL);
    TRACED(pages, &state, &regs, &request, code, 2, (tb_traced_access *)(void *)code, 1, &end);
    TRACED(pages, &state, &regs, &request, code, 2, data, 2, (tb_trace_report *)(void *)data);
    request.stops = NULL;
    TRACED(pages, &state, &regs, &request, code, 2, data, 2, &end);
    request.stops = stops;
    request.stop_count = huge / 16;
    TRACED(pages, &state, &regs, &request, code, 2, data, 2, &end);
    request.stop_count = 1;
    request.low = 2, request.high = 1;
    TRACED(pages, &state, &regs, &request, code, 2, data, 2, &end);
    request.low = 0, request.code_low = 5, request.code_high = 4;
    TRACED(pages, &state, &regs, &request, code, 2, data, 2, &end);
    request.code_low = 0, request.kinds = 16;
    TRACED(pages, &state, &regs, &request, code, 2, data, 2, &end);
#undef TRACED
    printf(" |");
    tell(4, (uint64_t)tb_is_array(text, 8, 1, 1), (uint64_t)tb_is_array(text, huge, 2, 1),
         (uint64_t)tb_are_apart(text, 4, text + 4, 4),
         (uint64_t)tb_are_apart(text, 5, text + 4, 4));
    tell(3, (uint64_t)tb_is_array((const void *)(uintptr_t)12, 1, 8, 8), step[0].call.answer, bad);
}

static void session(void) {
    const uint32_t frames = (uint32_t)number();
    const size_t room = (size_t)number();
    const tb_bytes script = bytes();
    const size_t count = (size_t)number();
    tb_bytes *files = (tb_bytes *)take(count, sizeof(tb_bytes));
    uint8_t *report = (uint8_t *)take(room, 1);
    tb_session_end end;
    memset(&end, 0xee, sizeof end);
    memset(report, 0xee, room);
    for (size_t i = 0; i < count; i++)
        files[i] = bytes();
    tell(1, (uint64_t)tb_session(frames, script.bytes, script.length, files, count, report, room,
                                 &end));
    tell(4, end.length, end.line, (uint64_t)end.code, (uint64_t)end.fault);
    tell_bytes(report, room);
    for (size_t i = 0; i < count; i++)
        drop(files[i]);
    free(files);
    free(report);
    drop(script);
}

static void tell_alone(const tb_alone_end *it) {
    tell(6, it->steps, it->output, it->calls, it->kept, (uint64_t)it->code, (uint64_t)it->refusal);
    tell(4, (uint64_t)it->status.status, (uint64_t)it->status.number, it->status.pc,
         it->status.pointer);
    tell_fault(&it->status.fault);
}

static void alone(void) {
    tb_terms terms;
    tb_alone_end end;
    memset(&end, 0xee, sizeof end);
    const tb_bytes image = bytes(), input = bytes();
    terms.image = image.bytes;
    terms.image_length = image.length;
    terms.input = input.bytes;
    terms.input_length = input.length;
    terms.seed = number();
    terms.pages = (uint32_t)number();
    terms.room = (uint32_t)number();
    terms.asynchronous = (uint32_t)number();
    terms.unused = 0;
    const size_t room = (size_t)number(), call_room = (size_t)number();
    terms.slice_count = (size_t)number();
    uint32_t *slices = (uint32_t *)take(terms.slice_count, sizeof(uint32_t));
    for (size_t i = 0; i < terms.slice_count; i++)
        slices[i] = (uint32_t)number();
    terms.slices = slices;
    uint8_t *output = (uint8_t *)take(room, 1);
    tb_kept_call *calls = (tb_kept_call *)take(call_room, sizeof(tb_kept_call));
    tell(1, (uint64_t)tb_alone(&terms, output, room, calls, call_room, &end));
    tell_alone(&end);
    tell_bytes(output, room);
    for (size_t i = 0; i < call_room; i++) {
        printf(" |");
        tell(4, calls[i].service, calls[i].first, calls[i].second, calls[i].answer);
    }
    free(slices);
    free(output);
    free(calls);
    drop(image);
    drop(input);
}

/* What a tenant begins with, its image and its input, without slices. */
static tb_terms read_terms(const tb_bytes *image, const tb_bytes *input, const uint32_t *none) {
    tb_terms terms;
    terms.image = image->bytes;
    terms.image_length = image->length;
    terms.input = input->bytes;
    terms.input_length = input->length;
    terms.seed = number();
    terms.pages = (uint32_t)number();
    terms.room = (uint32_t)number();
    terms.asynchronous = (uint32_t)number();
    terms.unused = 0;
    terms.slice_count = 0;
    terms.slices = none;
    return terms;
}

static tb_machine_act *read_acts(size_t count) {
    tb_machine_act *acts = (tb_machine_act *)take(count, sizeof(tb_machine_act));
    for (size_t i = 0; i < count; i++) {
        acts[i].act = (uint32_t)number();
        acts[i].number = (uint32_t)number();
        acts[i].addr = number();
        acts[i].value = number();
        acts[i].unused = 0;
    }
    return acts;
}

static void tell_acts(const tb_machine_act *acts, size_t count) {
    for (size_t i = 0; i < count; i++) {
        printf(" |");
        tell(2, (uint64_t)acts[i].code, acts[i].answer);
        tell_fault(&acts[i].fault);
    }
}

/* A tenant's machine: by the calls, or by those that test pointers. */
static void machine(bool is_checked) {
    static const uint32_t none = 0;
    tb_machine_end end;
    memset(&end, 0, sizeof end);
    const tb_bytes image = bytes(), input = bytes();
    const tb_terms terms = read_terms(&image, &input, &none);
    const size_t count = (size_t)number();
    tb_machine_act *acts = read_acts(count);
    uint8_t *output = (uint8_t *)take(16, 1);
    tb_kept_call *calls = (tb_kept_call *)take(4, sizeof(tb_kept_call));
    tell(1, (uint64_t)(is_checked ? tb_checked_machine_acts(&terms, acts, count, output, 16, calls,
                                                            4, &end)
                                  : tb_machine_acts(&terms, acts, count, output, 16, calls, 4,
                                                    &end)));
    tell_alone(&end.alone);
    tell(4, end.regs.x[0], end.regs.x[30], end.regs.sp, end.regs.pc);
    tell_bytes(output, 16);
    tell_acts(acts, count);
    free(acts);
    free(output);
    free(calls);
    drop(image);
    drop(input);
}

static void machine_pages(bool is_checked) {
    static const uint32_t none = 0;
    uint64_t mapped = 0xee;
    const tb_bytes image = bytes(), input = bytes();
    const tb_terms terms = read_terms(&image, &input, &none);
    const size_t room = (size_t)number(), count = (size_t)number();
    tb_machine_act *acts = read_acts(count);
    tb_page_entry *pages = (tb_page_entry *)take(room, sizeof(tb_page_entry));
    uint64_t sum = 0;
    tell(1, (uint64_t)(is_checked
                           ? tb_checked_machine_pages(&terms, acts, count, pages, room, &mapped)
                           : tb_machine_pages(&terms, acts, count, pages, room, &mapped)));
    for (size_t i = 0; i < room && i < mapped; i++)
        sum += pages[i].number * 16 + pages[i].attrs;
    tell(2, mapped, sum);
    free(acts);
    free(pages);
    drop(image);
    drop(input);
}

/* Null, misaligned, huge and overlapping arguments of a machine's calls, one by one. */
static void hostile_machine(void) {
    static const uint32_t none = 0;
    static const uint8_t image[64] = {0};
    const size_t huge = (size_t)-1;
    uint64_t mapped = 0xee, sum = 0;
    tb_terms terms = {image, 64, image, 64, &none, 0, 1, 64, 16, 0, 0};
    tb_machine_act acts[2];
    tb_kept_call calls[2];
    tb_page_entry pages[2];
    uint8_t output[16];
    tb_machine_end end;
    memset(acts, 0, sizeof acts);
    memset(&end, 0xee, sizeof end);
#define ACTS(t, a, n, o, r, c, m, e)                                                              \
    tell(1, (uint64_t)tb_checked_machine_acts(t, a, n, o, r, c, m, e))
    ACTS(NULL, acts, 2, output, 16, calls, 2, &end);
    ACTS(&terms, NULL, 2, output, 16, calls, 2, &end);
    ACTS(&terms, acts, huge, output, 16, calls, 2, &end);
    ACTS(&terms, acts, huge / 64, output, 16, calls, 2, &end);
    ACTS(&terms, acts, 2, NULL, 16, calls, 2, &end);
    ACTS(&terms, acts, 2, output, huge, calls, 2, &end);
    ACTS(&terms, acts, 2, output, 16, NULL, 0, &end);
    ACTS(&terms, acts, 2, output, 16, calls, huge / 32, &end);
    ACTS(&terms, acts, 2, output, 16, calls, 2, NULL);
    ACTS(&terms, acts, 2, (uint8_t *)acts, 16, calls, 2, &end);
    ACTS(&terms, acts, 2, output, 16, (tb_kept_call *)(void *)acts, 2, &end);
    ACTS(&terms, acts, 2, output, 16, calls, 2, (tb_machine_end *)(void *)&terms);
    ACTS(&terms, (tb_machine_act *)(void *)((uint8_t *)acts + 4), 1, output, 16, calls, 2, &end);
#undef ACTS
    printf(" |");
#define PAGES(t, a, n, p, r, m) tell(1, (uint64_t)tb_checked_machine_pages(t, a, n, p, r, m))
    PAGES(NULL, acts, 2, pages, 2, &mapped);
    PAGES(&terms, NULL, 2, pages, 2, &mapped);
    PAGES(&terms, acts, huge / 2, pages, 2, &mapped);
    PAGES(&terms, acts, 2, NULL, 0, &mapped);
    PAGES(&terms, acts, 2, pages, huge / 16, &mapped);
    PAGES(&terms, acts, 2, pages, 2, NULL);
    PAGES(&terms, acts, 2, (tb_page_entry *)(void *)acts, 2, &mapped);
    PAGES(&terms, acts, 2, pages, 2, (uint64_t *)(void *)pages);
    PAGES(&terms, acts, 2, pages, 2, &terms.seed);
#undef PAGES
    printf(" |");
    terms.input = NULL;
    tell(1, (uint64_t)tb_are_terms(&terms, output, 16));
    terms.input = output;
    terms.input_length = 1;
    tell(1, (uint64_t)tb_are_terms(&terms, output, 16));
    terms.input_length = 0;
    tell(1, (uint64_t)tb_are_terms(&terms, output, 16));
    terms.slice_count = huge / 4;
    tell(1, (uint64_t)tb_are_terms(&terms, output, 16));
    for (size_t i = 0; i < sizeof end; i++)
        sum += ((const uint8_t *)&end)[i] != 0xee;
    tell(2, mapped, sum);
}

static void tell_texts(void) {
    const uint32_t it = (uint32_t)number();
    printf(" %s; %s; %s; %s; %s; %s; %s; %s", tb_text(it), tb_fault_kind_name(it),
           tb_heap_abort_name(it), tb_script_fault_name(it), tb_refusal_name(it),
           tb_tenant_status_name(it), tb_trespass_name(it), tb_comparison_name(it));
}

/* The calls that only this header has, and the simple ones. */
static bool answer_number(const char *what) {
    uint64_t one, two;
    if (strcmp(what, "version") == 0) {
        tell(1, (uint64_t)tb_version());
    } else if (strcmp(what, "build_info") == 0) {
        uint8_t text[160];
        one = tb_build_info(text, sizeof text);
        printf(" %.*s", (int)strcspn((const char *)text, "\n"), (const char *)text);
        tell(1, one);
    } else if (strcmp(what, "map") == 0) {
        one = number();
        tell(1, (uint64_t)tb_map(pages, place_count, one, (uint32_t)number()));
    } else if (strcmp(what, "range") == 0) {
        one = number();
        two = number();
        tell(1, (uint64_t)tb_map_range(pages, place_count, one, two, (uint32_t)number()));
    } else if (strcmp(what, "unmap") == 0) {
        tell(1, (uint64_t)tb_unmap(pages, place_count, number()));
    } else if (strcmp(what, "place_of") == 0) {
        tell(1, (uint64_t)tb_place_of(pages, place_count, number()));
    } else if (strcmp(what, "peek") == 0) {
        one = number();
        tell(1, tb_peek(pages, place_count, one, (size_t)number()));
    } else if (strcmp(what, "size") == 0) {
        tell(1, (uint64_t)tb_access_size((uint32_t)number()));
    } else {
        return false;
    }
    return true;
}

static bool answer_memory(const char *what) {
    if (strcmp(what, "places") == 0)
        make_places();
    else if (strcmp(what, "write") == 0 || strcmp(what, "read") == 0)
        access_bytes(what[0] == 'w');
    else if (strcmp(what, "load") == 0)
        load();
    else if (strcmp(what, "load_tag") == 0)
        load_tag();
    else if (strcmp(what, "store_tags") == 0)
        store_tags();
    else if (strcmp(what, "place") == 0)
        tell_place();
    else if (strcmp(what, "withhold") == 0)
        tb_withhold(pages, place_count), tell_attributes();
    else if (strcmp(what, "give_back") == 0)
        tb_give_back(pages, place_count), tell_attributes();
    else
        return false;
    return true;
}

static void answer(const char *what) {
    if (answer_number(what) || answer_memory(what))
        return;
    if (strcmp(what, "set") == 0)
        set_registers();
    else if (strcmp(what, "registers") == 0)
        tell_registers();
    else if (strcmp(what, "step") == 0 || strcmp(what, "run") == 0 || strcmp(what, "until") == 0)
        step_or_run(what[0]);
    else if (strcmp(what, "trace") == 0 || strcmp(what, "trace_step") == 0)
        trace(what[5] != 0);
    else if (strcmp(what, "heap") == 0)
        heap_calls();
    else if (strcmp(what, "session") == 0)
        session();
    else if (strcmp(what, "alone") == 0)
        alone();
    else if (strcmp(what, "machine") == 0)
        machine(false);
    else if (strcmp(what, "machine_checked") == 0)
        machine(true);
    else if (strcmp(what, "machine_hostile") == 0)
        hostile_machine();
    else if (strcmp(what, "mapped") == 0)
        machine_pages(false);
    else if (strcmp(what, "mapped_checked") == 0)
        machine_pages(true);
    else if (strcmp(what, "texts") == 0)
        tell_texts();
    else if (strcmp(what, "replay") == 0)
        heap_replay();
    else if (strcmp(what, "live") == 0)
        heap_live(false);
    else if (strcmp(what, "live_checked") == 0)
        heap_live(true);
    else if (strcmp(what, "heap_mapped") == 0)
        heap_pages(false);
    else if (strcmp(what, "heap_mapped_checked") == 0)
        heap_pages(true);
    else if (strcmp(what, "traced") == 0)
        run_traced();
    else if (strcmp(what, "disassemble") == 0)
        disassemble();
    else if (strcmp(what, "hostile") == 0)
        be_hostile();
    else
        exit(8);
}

int main(void) {
    const size_t room = (size_t)1 << 24;
    char *line = (char *)take(room, 1);
    while (fgets(line, (int)room, stdin) != NULL) {
        line[strcspn(line, "\n")] = 0;
        rest = line;
        const char *what = word();
        printf("%s:", what);
        answer(what);
        printf("\n");
        fflush(stdout);
    }
    free(line);
    free(pages);
    return 0;
}
