package proved;

import java.io.IOException;
import java.nio.file.Files;
import java.nio.file.Path;
import org.junit.jupiter.api.Assertions;
import org.junit.jupiter.api.Nested;
import org.junit.jupiter.api.RepeatedTest;
import org.junit.jupiter.api.Test;
import org.junit.jupiter.api.extension.ExtendWith;
import org.junit.jupiter.api.io.TempDir;
import org.junit.jupiter.params.ParameterizedTest;
import org.junit.jupiter.params.provider.ValueSource;

/** Fifty tests, which each class below inherits. */
@ExtendWith(Resources.class)
abstract class Tests {
    @Test
    void one() {}

    @Test
    void two() throws InterruptedException {
        Thread.sleep(2);
    }

    @RepeatedTest(8)
    void repeated() {}

    @ParameterizedTest
    @ValueSource(ints = {0, 1, 2, 3, 4, 5, 6, 7, 8, 9, 10, 11, 12, 13, 14, 15, 16, 17, 18, 19})
    void number(int number) throws InterruptedException {
        Thread.sleep(number % 3);
    }

    @ParameterizedTest
    @ValueSource(strings = {"a", "b", "c", "d", "e", "f", "g", "h", "i", "j"})
    void file(String name, @TempDir Path folder) throws IOException {
        Files.createFile(folder.resolve(name));
        try (var files = Files.list(folder)) {
            Assertions.assertEquals(1, files.count());
        }
    }

    @Nested
    class Inside {
        @RepeatedTest(4)
        void repeated() {}

        @ParameterizedTest
        @ValueSource(longs = {1, 2, 3, 4, 5, 6})
        void number(long number, @TempDir Path folder) throws IOException {
            Files.write(folder.resolve("number"), new byte[(int) number]);
        }
    }
}

class FirstTests extends Tests {}

class SecondTests extends Tests {}

class ThirdTests extends Tests {}

class FourthTests extends Tests {}

class FifthTests extends Tests {}

class SixthTests extends Tests {}
