import java.nio.file.Files;
import java.nio.file.Path;
import java.util.ArrayList;
import java.util.List;
import java.util.concurrent.ExecutorService;
import java.util.concurrent.Executors;
import java.util.concurrent.Future;
import java.util.concurrent.Semaphore;
import serialcheck.Filter;
import serialcheck.Flag;
import serialcheck.Refused;

/**
 * Has eight threads check the files under one filter, which is closed while they do: Threads FILTER FILE.. Prints the answers of the
 * first one, says where another one's differ, and how many were told that the filter is closed.
 */
public final class Threads {
    private static final int THREADS = 8, ROUNDS = 20;

    public static void main(String[] words) throws Exception {
        List<byte[]> files = new ArrayList<>();
        for (int i = 1; i < words.length; i++) {
            files.add(Files.readAllBytes(Path.of(words[i])));
        }
        ExecutorService pool = Executors.newFixedThreadPool(THREADS);
        Filter filter = new Filter(words[0], Flag.ANYWHERE);
        List<Future<List<String>>> all = new ArrayList<>();
        for (int i = 0; i < THREADS; i++) {
            all.add(pool.submit(() -> answers(filter, files)));
        }
        List<String> first = all.get(0).get();
        first.forEach(System.out::println);
        for (Future<List<String>> other : all) {
            if (!other.get().equals(first)) {
                System.out.println("another thread has other answers");
            }
        }
        Semaphore begun = new Semaphore(0);
        List<Future<Boolean>> ends = new ArrayList<>();
        for (int i = 0; i < THREADS; i++) {
            ends.add(pool.submit(() -> isToldOfTheEnd(filter, files, begun)));
        }
        begun.acquire(THREADS);
        filter.close();
        int told = 0;
        for (Future<Boolean> end : ends) {
            told += end.get() ? 1 : 0;
        }
        System.out.println("closed: " + told);
        pool.shutdown();
    }

    private static List<String> answers(Filter filter, List<byte[]> files) {
        List<String> answers = new ArrayList<>();
        for (int round = 0; round < ROUNDS; round++) {
            List<String> again = new ArrayList<>();
            for (byte[] file : files) {
                again.add(answer(filter, file));
            }
            if (round > 0 && !again.equals(answers)) {
                return List.of("other answers in another round");
            }
            answers = again;
        }
        return answers;
    }

    /** Checks until the filter is closed. */
    private static boolean isToldOfTheEnd(Filter filter, List<byte[]> files, Semaphore begun) {
        answer(filter, files.get(0));
        begun.release();
        for (;;) {
            try {
                files.forEach(file -> answer(filter, file));
            } catch (IllegalStateException closed) {
                return closed.getMessage().equals("closed");
            }
        }
    }

    private static String answer(Filter filter, byte[] file) {
        try {
            return filter.check(file).toString();
        } catch (Refused refused) {
            return refused.getMessage();
        }
    }
}
