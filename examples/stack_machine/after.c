/* A small stack machine for whole numbers, after a change: a denominator of 0 counts as 1, the last port that was read
 * is kept, an operation has a better name, `pop` is new, and `instructions` is gone. */

struct machine {
    unsigned depth;
    int cells[16];
};

/* Of another unit. Code that leads to `report` is cold: the compiler puts it into a section of its own. */
__attribute__((cold)) void report(const char *what, int value);
int read_port(int port);

static unsigned long executed;
static int last_port;

static const char *const names[] = {"add", "subtract", "multiply", "and", "or", "exclusive or", "shift left",
                                    "shift right with sign", "read"};

int pop(struct machine *m)
{
    if (m->depth == 0) {
        report("nothing on the stack", 0);
        return 0;
    }
    return m->cells[--m->depth];
}

int top(const struct machine *m)
{
    if (m->depth == 0) {
        report("nothing on the stack", 0);
        return 0;
    }
    return m->cells[m->depth - 1];
}

void push(struct machine *m, int value)
{
    if (m->depth == 16) {
        report("stack is full", value);
        return;
    }
    m->cells[m->depth++] = value;
}

int scaled(int value, int numerator, int denominator)
{
    return value * numerator / (denominator ? denominator : 1);
}

int apply(int operation, int left, int right)
{
    switch (operation) {
    case 0: return left + right;
    case 1: return left - right;
    case 2: return left * right;
    case 3: return left & right;
    case 4: return left | right;
    case 5: return left ^ right;
    case 6: return left << (right & 31);
    case 7: return left >> (right & 31);
    case 8: last_port = left; return read_port(left);
    default:
        report("unknown operation", operation);
        return left;
    }
}

const char *name_of(unsigned operation)
{
    return operation < 9 ? names[operation] : "unknown";
}

int port(void)
{
    return last_port;
}

int run(struct machine *m, const int *program, unsigned length)
{
    for (unsigned i = 0; i < length; i++) {
        executed++;
        if (program[i] >= 0)
            push(m, program[i]);
        else
            m->cells[0] = apply(~program[i], m->cells[0], top(m));
    }
    return top(m);
}
