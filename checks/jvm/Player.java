import java.io.BufferedReader;
import java.io.InputStreamReader;
import java.io.IOException;
import java.io.StreamTokenizer;
import java.lang.ref.Cleaner;
import java.lang.ref.PhantomReference;
import java.lang.ref.Reference;
import java.lang.ref.ReferenceQueue;
import java.lang.ref.SoftReference;
import java.lang.ref.WeakReference;
import java.lang.reflect.Field;
import java.util.ArrayList;
import java.util.List;
import java.util.concurrent.atomic.AtomicIntegerArray;

/**
 * Plays scripts of java.lang.ref calls, and prints what each call answered.
 *
 * Standard input is numbers: the policy (0 keep, 1 clear, 2 age), how many scripts there are, of each script how many
 * steps it has and the steps, each with its operation and four operands, then for each round of collections how many
 * passes it takes. All scripts play up to their next collection, which is one for all of them. The heap is filled once,
 * when no script waits for anything else. A line of output for each script has its answers.
 *
 * Objects stand in arrays that static fields hold. No step is under way while a collection runs, so that no local holds
 * an object.
 */
final class Player {
    static final int OBJ = 0, ARR = 1, PUT = 2, GET = 3, COPY = 4, DROP = 5, SAME = 6, SOFT = 7, WEAK = 8, PHANTOM = 9,
        REF = 10, REFERS = 11, CLEAR = 12, ENQUEUE = 13, ENQUEUED = 14, QUEUE = 15, POLL = 16, DRAIN = 17, CLEANER = 18,
        REGISTER = 19, CLEAN = 20, ACTIONS = 21, LOOK = 22, GC = 23, OOM = 24;
    static final int SLOTS = 64, WORDS = 5, POLICY_CLEAR = 1, POLICY_AGE = 2;
    static final int UNNAMED_CLEANER = -2, UNNAMED_CLEANABLE = -3;
    static final long PATIENCE = 10_000;

    interface Numbered {
        int number();
    }

    static final class Plain implements Numbered {
        final int number;
        final Object[] fields;

        Plain(int number, int count) {
            this.number = number;
            fields = new Object[count];
        }

        public int number() {
            return number;
        }
    }

    static final class Soft extends SoftReference<Object> implements Numbered {
        final int number;

        Soft(int number, Object referent, ReferenceQueue<Object> queue) {
            super(referent, queue);
            this.number = number;
        }

        public int number() {
            return number;
        }
    }

    static final class Weak extends WeakReference<Object> implements Numbered {
        final int number;

        Weak(int number, Object referent, ReferenceQueue<Object> queue) {
            super(referent, queue);
            this.number = number;
        }

        public int number() {
            return number;
        }
    }

    static final class Phantom extends PhantomReference<Object> implements Numbered {
        final int number;

        Phantom(int number, Object referent, ReferenceQueue<Object> queue) {
            super(referent, queue);
            this.number = number;
        }

        public int number() {
            return number;
        }
    }

    static final class Queue extends ReferenceQueue<Object> implements Numbered {
        final int number;

        Queue(int number) {
            this.number = number;
        }

        public int number() {
            return number;
        }
    }

    /** An action counts how often it ran, and holds its object until it runs. */
    static final class Action implements Runnable {
        final AtomicIntegerArray counts;
        final int number;
        volatile Object held;

        Action(AtomicIntegerArray counts, int number, Object held) {
            this.counts = counts;
            this.number = number;
            this.held = held;
        }

        public void run() {
            held = null;
            counts.incrementAndGet(number);
        }
    }

    /** One script: its steps, its objects, and what it answered. */
    static final class Script {
        final int[] steps;
        final Object[] slots = new Object[SLOTS];
        final StringBuilder said = new StringBuilder();
        final AtomicIntegerArray counts;
        /** References without a queue to registered objects, to know how long to wait for actions. */
        final List<PhantomReference<Object>> registered = new ArrayList<>();
        /** The script's references, to know how long to wait for cleared ones, and which soft ones were cleared. */
        final List<WeakReference<Reference<?>>> references = new ArrayList<>();
        /** Of each object: whether it is no reference that a collection has yet to put into a queue. */
        final boolean[] settled;
        /** The collection that it waits for, or 0. */
        int waits;
        int at, made, actions;

        Script(int[] steps) {
            this.steps = steps;
            counts = new AtomicIntegerArray(steps.length / WORDS + 1);
            settled = new boolean[steps.length / WORDS + 1];
        }
    }

    static Script[] scripts;
    static int policy;
    static final ReferenceQueue<Object> DEATHS = new ReferenceQueue<>();
    static WeakReference<Object> sentinel;
    static List<byte[]> hog;
    static int disturbed, retried, late;

    public static void main(String[] words) throws Exception {
        StreamTokenizer in = new StreamTokenizer(new BufferedReader(new InputStreamReader(System.in)));
        read(in);
        int wait = GC;
        do {
            sentinel();
            boolean collects = false, fills = false;
            for (Script script : scripts) {
                int next = play(script, wait);
                collects |= next == GC;
                fills |= next == OOM;
            }
            disturbed += sentinel.refersTo(null) ? 1 : 0;
            wait = collects ? GC : fills ? OOM : 0;
            if (wait != 0) {
                collect(number(in), wait == OOM);
            }
        } while (wait != 0);
        for (Script script : scripts) {
            System.out.println(script.said);
        }
        System.out.println("end " + disturbed + " " + retried + " " + late);
    }

    static int number(StreamTokenizer in) throws IOException {
        in.nextToken();
        return (int) in.nval;
    }

    static void read(StreamTokenizer in) throws IOException {
        policy = number(in);
        scripts = new Script[number(in)];
        for (int s = 0; s < scripts.length; s++) {
            int[] steps = new int[WORDS * number(in)];
            for (int i = 0; i < steps.length; i++) {
                steps[i] = number(in);
            }
            scripts[s] = new Script(steps);
        }
    }

    // ---- Collections

    static void sentinel() {
        sentinel = new WeakReference<>(new Object(), DEATHS);
    }

    /** Collects so often; to fill the heap, so often before and after. */
    static void collect(int passes, boolean fill) throws ReflectiveOperationException, InterruptedException {
        for (int pass = 0; pass < passes; pass++) {
            pass();
        }
        if (fill) {
            fill();
            collect(passes, false);
        }
        if (policy == POLICY_AGE) {
            for (Script script : scripts) {
                tell(script);
            }
        }
    }

    /** Collects until a sentinel's death is in its queue, and all that is owed then is done. */
    static void pass() throws ReflectiveOperationException, InterruptedException {
        while (DEATHS.poll() != null) {
            continue;
        }
        sentinel();
        if (policy == POLICY_CLEAR) {
            age();
        }
        Thread.sleep(2);
        System.gc();
        while (DEATHS.remove(PATIENCE / 10) == null) {
            retried++;
            System.gc();
        }
        await();
    }

    /** Makes all soft references as old as the machine's clock, so that a collection clears even new ones. */
    static void age() throws ReflectiveOperationException {
        Field timestamp = SoftReference.class.getDeclaredField("timestamp");
        timestamp.setAccessible(true);
        for (Script script : scripts) {
            for (WeakReference<Reference<?>> each : script.references) {
                if (each.get() instanceof SoftReference<?> soft) {
                    timestamp.setLong(soft, 0);
                }
            }
        }
    }

    /** Takes memory until none is left, and gives it back. */
    static void fill() {
        hog = new ArrayList<>();
        try {
            while (true) {
                hog.add(new byte[1 << 17]);
            }
        } catch (OutOfMemoryError full) {
            hog = null;
        }
    }

    /** Waits, not for ever, until what was cleared is in its queues and the actions that are due have run. */
    static void await() throws InterruptedException {
        long end = System.nanoTime() + PATIENCE * 1_000_000;
        for (Script script : scripts) {
            while (owes(script)) {
                if (System.nanoTime() > end) {
                    late++;
                    return;
                }
                Thread.sleep(1);
            }
        }
    }

    static boolean owes(Script script) {
        for (int action = 0; action < script.registered.size(); action++) {
            if (script.registered.get(action).refersTo(null) && script.counts.get(action) == 0) {
                return true;
            }
        }
        for (WeakReference<Reference<?>> each : script.references) {
            Reference<?> reference = each.get();
            if (reference != null && reference.refersTo(null) && !isSettled(script, reference)) {
                return true;
            }
        }
        return false;
    }

    static boolean isSettled(Script script, Reference<?> reference) {
        return script.settled[((Numbered) reference).number()] || isEnqueued(reference);
    }

    @SuppressWarnings("deprecation")
    static boolean isEnqueued(Reference<?> reference) {
        return reference.isEnqueued();
    }

    /** Adds an answer, if the script waits for a collection: the soft references that are there and cleared. */
    static void tell(Script script) {
        if (script.waits != GC) {
            return;
        }
        script.said.append(" {");
        for (WeakReference<Reference<?>> each : script.references) {
            Reference<?> reference = each.get();
            if (reference instanceof SoftReference && reference.refersTo(null)) {
                script.said.append(((Numbered) reference).number()).append(',');
            }
        }
        script.said.append('}');
    }

    // ---- Steps

    /** Plays a script to its next collection, from behind the one that was. Which that is, or 0. */
    static int play(Script script, int was) {
        script.at += script.waits == was ? WORDS : 0;
        script.waits = script.waits == was ? 0 : script.waits;
        while (script.waits == 0 && script.at < script.steps.length) {
            int at = script.at;
            int operation = script.steps[at];
            if (operation >= GC) {
                script.waits = operation;
                break;
            }
            script.at += WORDS;
            try {
                int[] steps = script.steps;
                step(script, operation, steps[at + 1], steps[at + 2], steps[at + 3], steps[at + 4]);
            } catch (RuntimeException wrong) {
                script.said.append(" !").append(wrong.getClass().getSimpleName());
            }
        }
        return script.waits;
    }

    static void step(Script script, int operation, int a, int b, int c, int d) {
        Object[] slots = script.slots;
        switch (operation) {
            case OBJ -> slots[a] = new Plain(script.made++, b);
            case ARR -> slots[a] = array(script.made++, b);
            case PUT -> fields(slots[a])[b + first(slots[a])] = at(slots, c);
            case GET -> say(script, slots[a] = fields(slots[b])[c + first(slots[b])]);
            case COPY -> slots[a] = slots[b];
            case DROP -> slots[a] = null;
            case SAME -> say(script, slots[a] == slots[b]);
            case QUEUE -> slots[a] = new Queue(script.made++);
            case POLL -> say(script, slots[a] = polled(script, slots[b]));
            case DRAIN -> drain(script, slots[a]);
            case CLEANER -> {
                script.made++;
                slots[a] = Cleaner.create();
            }
            case REGISTER -> register(script, a, (Cleaner) slots[b], slots[c], at(slots, d));
            case CLEAN -> ((Cleaner.Cleanable) slots[a]).clean();
            case ACTIONS -> actions(script);
            case LOOK -> look(script);
            default -> references(script, operation, a, b, c);
        }
    }

    static void references(Script script, int operation, int a, int b, int c) {
        Object[] slots = script.slots;
        switch (operation) {
            case SOFT -> refer(script, a, new Soft(script.made++, slots[b], (Queue) at(slots, c)), c);
            case WEAK -> refer(script, a, new Weak(script.made++, slots[b], (Queue) at(slots, c)), c);
            case PHANTOM -> refer(script, a, new Phantom(script.made++, slots[b], (Queue) at(slots, c)), c);
            case REF -> say(script, slots[a] = ((Reference<?>) slots[b]).get());
            case REFERS -> say(script, reference(slots[a]).refersTo(at(slots, b)));
            case CLEAR -> {
                script.settled[((Numbered) slots[a]).number()] |= !reference(slots[a]).refersTo(null);
                reference(slots[a]).clear();
            }
            case ENQUEUE -> say(script, reference(slots[a]).enqueue());
            case ENQUEUED -> say(script, isEnqueued(reference(slots[a])));
            default -> throw new IllegalArgumentException();
        }
    }

    static Object at(Object[] slots, int slot) {
        return slot < 0 ? null : slots[slot];
    }

    /** An array has its number as its first element. */
    static Object[] array(int number, int count) {
        Object[] made = new Object[count + 1];
        made[0] = number;
        return made;
    }

    static Object[] fields(Object holder) {
        return holder instanceof Plain plain ? plain.fields : (Object[]) holder;
    }

    static int first(Object holder) {
        return holder instanceof Plain ? 0 : 1;
    }

    @SuppressWarnings("unchecked")
    static Reference<Object> reference(Object slot) {
        return (Reference<Object>) slot;
    }

    static void refer(Script script, int slot, Reference<Object> made, int queue) {
        script.settled[((Numbered) made).number()] = queue < 0;
        script.references.add(new WeakReference<>(made));
        script.slots[slot] = made;
    }

    static void register(Script script, int slot, Cleaner cleaner, Object referent, Object held) {
        script.made++;
        script.registered.add(new PhantomReference<>(referent, null));
        script.slots[slot] = cleaner.register(referent, new Action(script.counts, script.actions++, held));
    }

    static Object polled(Script script, Object queue) {
        Reference<?> found = ((Queue) queue).poll();
        if (found != null) {
            script.settled[((Numbered) found).number()] = true;
        }
        return found;
    }

    static void drain(Script script, Object queue) {
        script.said.append(" [");
        for (Object found = polled(script, queue); found != null; found = polled(script, queue)) {
            script.said.append(number(found)).append(',');
        }
        script.said.append(']');
    }

    static void actions(Script script) {
        script.said.append(" <");
        for (int action = 0; action < script.actions; action++) {
            script.said.append(action).append(':').append(script.counts.get(action)).append(',');
        }
        script.said.append('>');
    }

    /** Of each reference in a slot, in the order of slots: whether it was cleared, and whether it is in its queue. */
    static void look(Script script) {
        script.said.append(" (");
        for (int slot = 0; slot < SLOTS; slot++) {
            if (script.slots[slot] instanceof Reference && script.slots[slot] instanceof Numbered) {
                Reference<Object> reference = reference(script.slots[slot]);
                script.said.append(slot).append(reference.refersTo(null) ? ":1" : ":0");
                script.said.append(isEnqueued(reference) ? "1," : "0,");
            }
        }
        script.said.append(')');
    }

    // ---- Answers

    static int number(Object found) {
        if (found instanceof Numbered numbered) {
            return numbered.number();
        }
        if (found instanceof Object[] array) {
            return (Integer) array[0];
        }
        return found instanceof Cleaner ? UNNAMED_CLEANER : UNNAMED_CLEANABLE;
    }

    static void say(Script script, Object found) {
        script.said.append(' ').append(found == null ? -1 : number(found));
    }

    static void say(Script script, boolean holds) {
        script.said.append(holds ? " yes" : " no");
    }
}
