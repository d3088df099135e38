/* One station of the alternating bit protocol, as examples/alternating_bit.est has it, and a trace of
   LENGTH events at its ports: four events, again and again, of which the bit of the frame is another one
   each time. A run that has all of them ends in an assertion that fails, so that SPIN tells it as an error.
   No time passes in the trace, so that the timer is never due: it is left out here. */

#define STEP (happened % 4)
#define BIT ((happened % 8) / 4)
#define CONTENT 7

mtype = { data, ack };

int happened = 0;      /* so many events have happened */
chan user = [8] of { int };
chan line = [8] of { mtype, bit, int };

active proctype station() {
    bit current, expected, number;
    bool waits;
    int content;
    mtype kind;

    do
    /* the outside: what arrives next in the trace */
    :: atomic { happened < LENGTH && STEP == 0 -> user ! CONTENT; happened++ }
    :: atomic { happened < LENGTH && STEP == 2 -> line ! ack, BIT, 0; happened++ }

    /* a frame is sent */
    :: atomic { !waits && nempty(user) -> user ? content;
        happened < LENGTH && STEP == 1 && BIT == current && content == CONTENT -> happened++; waits = true }

    /* it is acknowledged */
    :: atomic { waits && line ? [ack, eval(current), _] -> line ? kind, number, content;
        happened < LENGTH && STEP == 3 -> happened++; current = 1 - current; waits = false }

    /* another acknowledgement */
    :: atomic { waits && line ? [ack, eval(1 - current), _] -> line ? kind, number, content }
    :: atomic { !waits && line ? [ack, _, _] -> line ? kind, number, content }

    /* a frame of the other station: it would be delivered and acknowledged, which the trace has not */
    :: atomic { line ? [data, eval(expected), _] -> line ? kind, number, content; false }
    :: atomic { line ? [data, eval(1 - expected), _] -> line ? kind, number, content; false }

    :: happened == LENGTH -> assert(false)
    od
}
