package folugben;

import com.sun.jna.Memory;
import com.sun.jna.Pointer;

/**
 * Room for what the library keeps, and the lock of the calls on it. Calls are passed addresses
 * alone; that their thread holds the lock keeps the room, and what this has beside, from being
 * collected.
 */
class Slot extends Memory {
    private static final int BYTES = 16;

    /** The address of the slot. */
    final long at = Pointer.nativeValue(this);

    /** An empty slot. */
    Slot() {
        super(BYTES);
        clear();
    }

    /** Whether it holds something; to be asked with its lock. */
    boolean isFull() {
        return getByte(0) != 0;
    }

    /**
     * The slot of an agent with the calls on it, whose lock is that of the calls on its steps too.
     *
     * <p>A thread may be stopped, or run out of stack, at each call and at each return of one: so the
     * slots of steps are kept by links, which are written one after the other, and a slot that is
     * between two lists is in none of them.
     */
    static final class AgentSlot extends Slot {
        /** What these calls are passed and return. */
        final Room room = new Room();

        /** The slot that was made last for a step, and the one of a step that was over last. */
        private StepSlot made;
        private StepSlot idle;
        /** Whether the last call was a fire, or the end of a step: the next polls first. */
        private boolean isIdle;
        /** Of its storage: see {@link Storage#lent}. */
        private final boolean[] lent;
        private final int number;

        /** An empty slot for the agent with this number, of the storage that has this. */
        AgentSlot(boolean[] lent, int number) {
            this.lent = lent;
            this.number = number;
        }

        /** Returns a slot for a step, which has it to itself until the step returns it. */
        StepSlot takeStep(Step step) {
            StepSlot taken = idle;
            if (taken == null) {
                taken = new StepSlot();
                taken.before = made;
                made = taken;
            } else {
                idle = taken.next;
            }
            taken.owner = step;
            return taken;
        }

        /** Takes back the slot of a step that is over, which is empty; of any other one, nothing. */
        void giveStep(StepSlot slot, Step step) {
            if (slot.owner != step)
                return;
            slot.owner = null;
            slot.next = idle;
            idle = slot;
            isIdle = true;
        }

        /** Returns whether a step has begun and isn't over. */
        boolean hasStep() {
            for (StepSlot slot = made; slot != null; slot = slot.before)
                if (slot.owner != null)
                    return true;
            return false;
        }

        /** The slot of a step, and its place among those of the agent. */
        static final class StepSlot extends Slot {
            /** The step that it is of; null if it is idle. */
            private Step owner;
            private StepSlot next;
            /** The one that was made before: what all have keeps them from being collected. */
            private StepSlot before;

            boolean isOf(Step step) {
                return owner == step;
            }
        }

        /**
         * Takes the state of another agent of the storage, if nothing depends on that one.
         *
         * <p>That is so if the other, whose lock is held too, has fired or ended a step since its
         * last poll, and is in no step.
         */
        void takeState(AgentSlot other) {
            if (!isFull() || !other.isFull() || !other.isIdle || other.hasStep())
                return;
            // It is lent before it is taken, as this thread may be stopped in between.
            lent[other.number] = true;
            Calls.asm_take_state(at, other.at);
        }

        /** Notes the code of a call that polls, after which the state is as new as any. */
        private Code afterPoll(Code code) {
            isIdle = false;
            if (code == Code.DONE || code == Code.STALE)
                lent[number] = false;
            return code;
        }

        /** Polls if the state is older than it was, before it is shown. */
        private Code catchUp() {
            return lent[number] ? follow() : Code.DONE;
        }

        Code read(byte[] locations) {
            return afterPoll(room.make(locations,
                    (text, out, length, written) -> Calls.asm_read(at, text, locations.length)));
        }

        /** Fires a move, whose text has so many bytes and has the scans after it. */
        Code fireOver(byte[] both, int move) {
            Code code = room.make(both,
                    (text, out, length, written)
                            -> Calls.asm_try_fire_over(
                                    at, text, move, text + move, both.length - move, room.numbers()));
            isIdle = true;
            return code;
        }

        Code begin(StepSlot step) {
            return afterPoll(Code.of(Calls.asm_begin(at, step.at, room.numbers())));
        }

        Code follow() {
            return afterPoll(Code.of(Calls.asm_follow(at, room.numbers())));
        }

        Calls.Result stands(byte[] reads) {
            Calls.Result result = room.resultOf(reads,
                    (text, out, length, written)
                            -> Calls.asm_stands(at, text, reads.length, out, length, written));
            afterPoll(result.code());
            return result;
        }

        Calls.Result stands(Slot step) {
            Calls.Result result = room.resultOf(
                    (text, out, length, written)
                            -> Calls.asm_step_stands(at, step.at, out, length, written));
            afterPoll(result.code());
            return result;
        }

        Calls.Result peek(byte[] locations) {
            Code code = catchUp();
            return code != Code.DONE ? new Calls.Result(code, "") : room.resultOf(locations,
                    (text, out, length, written)
                            -> Calls.asm_peek(at, text, locations.length, out, length, written));
        }

        /** Writes the value into the room, at the first number there. */
        Code peek(PreparedLocation location) {
            Code code = catchUp();
            return code != Code.DONE ? code : room.make(
                    (text, out, length, written)
                            -> Calls.asm_peek_at(at, location.slot.at, room.numbers(), room.value(), out,
                                    length, written));
        }

        Calls.Result state() {
            Code code = catchUp();
            return code != Code.DONE ? new Calls.Result(code, "") : room.resultOf(
                    (text, out, length, written)
                            -> Calls.asm_state(at, room.numbers(), out, length, written));
        }

        Calls.Result scan(byte[] name) {
            Code code = catchUp();
            return code != Code.DONE ? new Calls.Result(code, "") : room.resultOf(name,
                    (text, out, length, written)
                            -> Calls.asm_scan(
                                    at, text, name.length, room.numbers(), out, length, written));
        }

        Code goOn(int capacity, Slot next) {
            Code code = catchUp();
            return code != Code.DONE ? code : Code.of(Calls.asm_go_on(at, capacity, next.at));
        }

        Calls.Result answer() {
            return room.resultOf((text, out, length, written) -> Calls.asm_answer(at, out, length, written));
        }
    }
}
