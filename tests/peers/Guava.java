import com.google.common.hash.BloomFilter;
import com.google.common.hash.Funnels;
import java.util.function.LongPredicate;

/**
 * What inserts and look-ups cost in Guava: {@code Guava [KEYS [ROUNDS]]}. A filter is made for the
 * rate 0.0082, which is ten bits a key and seven hashes, and gets the hashes of hashes.c, whose rows
 * these are like.
 */
final class Guava {
    private static final int BLOCK = 1024;

    private Guava() { }

    private static long spread(long number) {
        long word = number + 0x9e3779b97f4a7c15L;
        word = (word ^ word >>> 30) * 0xbf58476d1ce4e5b9L;
        word = (word ^ word >>> 27) * 0x94d049bb133111ebL;
        return word ^ word >>> 31;
    }

    /** The nanoseconds of the calls, and how many returned true. */
    private static long[] measure(long first, long keys, LongPredicate call) {
        long[] block = new long[BLOCK];
        long spent = 0;
        long found = 0;
        for (long at = 0; at < keys;) {
            int count = 0;
            for (; count < BLOCK && at < keys; at++) {
                block[count++] = spread(first + at);
            }
            long began = System.nanoTime();
            for (int i = 0; i < count; i++) {
                if (call.test(block[i])) {
                    found++;
                }
            }
            spent += System.nanoTime() - began;
        }
        return new long[] {spent, found};
    }

    public static void main(String[] words) {
        long keys = words.length > 0 ? Long.parseLong(words[0]) : 1000000;
        int rounds = words.length > 1 ? Integer.parseInt(words[1]) : 3;
        String[] calls = {"insert", "hit", "miss"};
        long[] best = new long[3];
        long[] found = new long[3];
        for (int round = 0; round < rounds; round++) {
            BloomFilter<Long> filter = BloomFilter.create(Funnels.longFunnel(), keys, 0.0082);
            for (int i = 0; i < 3; i++) {
                LongPredicate call = i == 0 ? filter::put : filter::mightContain;
                long[] took = measure(i == 2 ? keys : 0, keys, call);
                best[i] = round == 0 ? took[0] : Math.min(best[i], took[0]);
                found[i] = took[1];
            }
        }
        System.out.printf("%-14s %-6s %9s %11s %9s%n", "library", "call", "keys", "nanoseconds", "true");
        for (int i = 0; i < 3; i++) {
            System.out.printf("%-14s %-6s %9d %11.2f %9d%n", "Guava", calls[i], keys,
                (double) best[i] / keys, found[i]);
        }
        System.exit(found[1] == keys ? 0 : 1);
    }
}
