import java.lang.invoke.MethodHandles;
import java.lang.invoke.VarHandle;
import java.nio.ByteBuffer;
import java.nio.ByteOrder;
import java.nio.channels.FileChannel;
import java.nio.file.Path;
import java.nio.file.StandardOpenOption;
import java.util.Random;
import java.util.concurrent.locks.LockSupport;

/**
 * Eight threads that count, each in a place of its own of a file that lies in memory, so that another program sees who runs. The thread
 * "counter 0" passes the methods first, second and third in turn; "counter 1" throws and catches an exception now and then; seven of them
 * stay, and the eighth ends after a while and another one begins, which has the next place.
 *
 * <p>java Counting FILE SEED, where FILE has PLACES times LINE bytes.
 */
public class Counting {
    static final int PLACES = 1 << 14;
    static final int LINE = 64;
    static final int STAY = 7;
    static final VarHandle NUMBER = MethodHandles.byteBufferViewVarHandle(long[].class, ByteOrder.nativeOrder());
    static ByteBuffer memory;
    static volatile long passed;

    static long twice(long number) {
        return 2 * number;
    }

    static long first(long number) {
        long more = number + 1; // a place
        passed = more;
        return more; // a place
    }

    static long second(long number) {
        long more = twice(number); // a place
        passed = more;
        return more;
    }

    static long third(long number) {
        passed = number; // a place
        return number;
    }

    static void throwsOne(long number) {
        try {
            throw new IllegalStateException("at " + number);
        } catch (IllegalStateException caught) {
            passed = number; // a place
        }
    }

    static final class Counter extends Thread {
        final int place;
        final long rounds;
        long number;

        Counter(int place, long rounds) {
            super("counter " + place);
            this.place = place;
            this.rounds = rounds;
            setDaemon(true);
        }

        void count() {
            for (int i = 0; i < 1_000; i++) {
                number++;
                NUMBER.setOpaque(memory, place * LINE, number);
            }
            LockSupport.parkNanos(50_000);
        }

        void pass(long round) {
            if (place == 1 && round % 100 == 0) {
                throwsOne(round);
            }
            if (place == 0 && round % 5 == 0) {
                switch ((int) (round / 5 % 3)) {
                    case 0 -> first(round);
                    case 1 -> second(round);
                    default -> third(round);
                }
            }
        }

        @Override
        public void run() {
            for (long round = 1; round <= rounds; round++) {
                count();
                pass(round);
            }
        }
    }

    public static void main(String[] words) throws Exception {
        try (FileChannel file = FileChannel.open(Path.of(words[0]), StandardOpenOption.READ, StandardOpenOption.WRITE)) {
            memory = file.map(FileChannel.MapMode.READ_WRITE, 0, (long) PLACES * LINE);
        }
        Random random = new Random(Long.parseLong(words[1]));
        Counter one = null;
        for (int place = 0; place < PLACES; place++) {
            one = new Counter(place, place < STAY ? Long.MAX_VALUE : 100 + random.nextInt(2_000));
            one.start();
            if (place >= STAY) {
                one.join();
            }
        }
    }
}
