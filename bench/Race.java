import java.util.concurrent.atomic.AtomicReferenceArray;

/**
 * The jobs that bench/race.sh times, in Java, with no proof: those of race.c. Words: the number of tasks, the jobs of each, and
 * `longest` if the longest job is to be timed. The pauses are those of the machine's own log (-Xlog:safepoint).
 */
final class Race {
    /** An object of one reference and three numbers. */
    static final class Item {
        volatile Object reference;
        volatile long first;
        volatile long second;
        volatile long third;
    }

    /** A task, on a thread of its own. */
    static final class Task extends Thread {
        private final AtomicReferenceArray<Item> board;
        private final int seat;
        private final long jobs;
        private final boolean isTimed;
        long sum;
        long longest;

        Task(AtomicReferenceArray<Item> board, int seat, long jobs, boolean isTimed) {
            this.board = board;
            this.seat = seat;
            this.jobs = jobs;
            this.isTimed = isTimed;
        }

        private void doJob(long job) {
            Item own = new Item();
            own.first = job;
            own.reference = board;
            board.set(seat, own);
            Item other = board.get((seat + 1) % board.length());
            if (other != null) {
                sum += other.first;
            }
        }

        @Override
        public void run() {
            long before = System.nanoTime();
            for (long job = 0; job < jobs; job++) {
                doJob(job);
                if (isTimed) {
                    long after = System.nanoTime();
                    longest = Math.max(longest, after - before);
                    before = after;
                }
            }
        }
    }

    public static void main(String[] words) throws InterruptedException {
        int count = Integer.parseInt(words[0]);
        long jobs = Long.parseLong(words[1]);
        boolean isTimed = words.length > 2 && words[2].equals("longest");
        AtomicReferenceArray<Item> board = new AtomicReferenceArray<>(count);
        Task[] tasks = new Task[count];
        for (int seat = 0; seat < count; seat++) {
            tasks[seat] = new Task(board, seat, jobs, isTimed);
            tasks[seat].start();
        }
        long longest = 0;
        long sum = 0;
        for (Task task : tasks) {
            task.join();
            longest = Math.max(longest, task.longest);
            sum += task.sum;
        }
        System.out.println("jobs " + count * jobs + " longest " + longest + " ns sum " + sum);
    }
}
