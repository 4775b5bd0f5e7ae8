/* The abstract bus of docs/BUS.md with four devices, as far as raises, serve, ENEC, DISEC and drop-offs go: the main controller
   is in slot 0, stays active and raises nothing; the devices in slots 1 to 3 have addresses in the order of slots, and
   interrupts with a byte. Each line of a track is one step of the model. */

#define DEVICES 4
#define QUEUE 8
#define RECORDS 24

typedef device {
    bool present = true;
    bool signals = true;   /* its interrupts are enabled */
    byte raised;           /* its accepted raises */
    byte waiting;          /* how many of them wait: the last ones */
    byte queue[QUEUE]      /* their bytes, the oldest first */
}

typedef record {
    byte slot;
    byte number;
    byte code              /* the byte that came with the interrupt */
}

device devices[DEVICES];
record log[RECORDS];
byte records;
byte finished;             /* how many tracks have no line left */

/* locals of a step: 0 between two steps */
hidden byte k;
hidden byte first;

/* a device raises an interrupt: it is refused if the device is gone, if its interrupts are disabled, or if eight wait */
inline raise(s, code) {
    if
    :: devices[s].present && devices[s].signals && devices[s].waiting < QUEUE ->
        devices[s].queue[devices[s].waiting] = code;
        devices[s].waiting++;
        devices[s].raised++
    :: else
    fi
}

/* a frame begins: of the devices that have an interrupt waiting and enabled, the one at the lowest address is served */
inline serve() {
    first = 1;
    do
    :: first < DEVICES && !(devices[first].present && devices[first].signals && devices[first].waiting > 0) -> first++
    :: else -> break
    od;
    if
    :: first < DEVICES ->
        log[records].slot = first;
        log[records].number = devices[first].raised - devices[first].waiting + 1;
        log[records].code = devices[first].queue[0];
        records++;
        devices[first].waiting--;
        k = 0;
        do
        :: k < devices[first].waiting -> devices[first].queue[k] = devices[first].queue[k + 1]; k++
        :: else -> break
        od;
        devices[first].queue[k] = 0
    :: else
    fi
}

/* interrupts are enabled or disabled, of one device or of all but the active controller, behind what the frame serves first. A
   device that is gone gives no answer */
inline switch_one(s, on) {
    serve();
    if
    :: devices[s].present -> devices[s].signals = on
    :: else
    fi
}

inline switch_all(on) {
    serve();
    k = 1;
    do
    :: k < DEVICES && devices[k].present -> devices[k].signals = on; k++
    :: k < DEVICES && !devices[k].present -> k++
    :: else -> break
    od
}

/* a device drops off, with what waits in its queue; its number of raises stays. It is refused if the device is gone */
inline drop(s) {
    if
    :: devices[s].present ->
        devices[s].present = false;
        devices[s].signals = false;
        devices[s].waiting = 0;
        k = 0;
        do
        :: k < QUEUE -> devices[s].queue[k] = 0; k++
        :: else -> break
        od
    :: else
    fi
}
