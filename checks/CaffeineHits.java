import com.github.benmanes.caffeine.cache.Cache;
import com.github.benmanes.caffeine.cache.Caffeine;
import java.io.BufferedReader;
import java.io.InputStreamReader;
import java.lang.reflect.Field;
import java.util.concurrent.ThreadLocalRandom;

/**
 * Plays a trace, a number a line, into Caffeine: for each word, a capacity, a line of how many accesses hit by each of
 * some seeds. All maintenance is done in this thread, after each access, so that the seed says all that happens.
 */
class CaffeineHits {
    private static final int SEEDS = 4;

    public static void main(String[] capacities) throws ReflectiveOperationException {
        long[] keys = new BufferedReader(new InputStreamReader(System.in)).lines().mapToLong(Long::parseLong).toArray();
        for (String capacity : capacities) {
            StringBuilder line = new StringBuilder();
            for (int seed = 1; seed <= SEEDS; seed++) {
                setSeed(seed);
                line.append(hits(keys, Long.parseLong(capacity))).append(' ');
            }
            System.out.println(line);
        }
    }

    /** What Caffeine draws by chance: how it spreads the keys over its sketch, and which rare ones it lets in. */
    private static void setSeed(long seed) throws ReflectiveOperationException {
        ThreadLocalRandom.current();
        Field field = Thread.class.getDeclaredField("threadLocalRandomSeed");
        field.setAccessible(true);
        field.setLong(Thread.currentThread(), seed);
    }

    private static int hits(long[] keys, long capacity) {
        Cache<Long, Boolean> cache = Caffeine.newBuilder().maximumSize(capacity).executor(Runnable::run).build();
        int hits = 0;
        for (long key : keys) {
            if (cache.getIfPresent(key) != null) {
                hits++;
            } else {
                cache.put(key, true);
            }
            cache.cleanUp();
        }
        return hits;
    }
}
