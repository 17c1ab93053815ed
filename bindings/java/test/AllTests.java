import java.lang.reflect.Constructor;
import java.lang.reflect.Method;
import java.lang.reflect.Modifier;
import java.util.List;

/** Runs the tests. Prints a line for each one that fails; the last line is 'N passed, M failed'. */
final class AllTests {
    private static int passed;
    private static int failed;

    private AllTests() {}

    private static void run(Class<?> type) throws ReflectiveOperationException {
        Constructor<?> made = type.getDeclaredConstructor();
        for (Method test : type.getDeclaredMethods()) {
            if (Modifier.isPrivate(test.getModifiers()) || Modifier.isStatic(test.getModifiers()) || test.isSynthetic()) {
                continue;
            }
            try {
                test.invoke(made.newInstance());
                passed++;
            } catch (ReflectiveOperationException fault) {
                failed++;
                System.out.println(test.getName() + ": failed");
                fault.getCause().printStackTrace(System.out);
            }
        }
    }

    public static void main(String[] words) throws ReflectiveOperationException {
        for (Class<?> type : List.of(StoreTest.class, ClosingTest.class, ThreadsTest.class, LoadingTest.class)) {
            run(type);
        }
        System.out.println(passed + " passed, " + failed + " failed");
        System.exit(failed == 0 ? 0 : 1);
    }
}
