package suite;

import org.junit.jupiter.api.RepeatedTest;
import org.junit.jupiter.api.Test;
import org.junit.jupiter.api.extension.ExtendWith;

/** Eleven tests, which each class below inherits. */
@ExtendWith(Shared.class)
abstract class Tests {
    @Test
    void one() throws InterruptedException {
        Thread.sleep(2);
    }

    @Test
    void two() throws InterruptedException {
        Thread.sleep(2);
    }

    @Test
    void three() throws InterruptedException {
        Thread.sleep(2);
    }

    @Test
    void four() throws InterruptedException {
        Thread.sleep(2);
    }

    @Test
    void five() throws InterruptedException {
        Thread.sleep(2);
    }

    @Test
    void six() throws InterruptedException {
        Thread.sleep(2);
    }

    @Test
    void seven() throws InterruptedException {
        Thread.sleep(2);
    }

    @Test
    void eight() throws InterruptedException {
        Thread.sleep(2);
    }

    @RepeatedTest(3)
    void repeated() {}
}

class FirstTests extends Tests {}

class SecondTests extends Tests {}

class ThirdTests extends Tests {}

class FourthTests extends Tests {}

class FifthTests extends Tests {}

class SixthTests extends Tests {}
