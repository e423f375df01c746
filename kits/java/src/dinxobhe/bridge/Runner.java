package dinxobhe.bridge;

import dinxobhe.frames.Answers;
import java.io.BufferedInputStream;
import java.io.BufferedOutputStream;
import java.io.IOException;
import java.io.InputStream;
import java.io.OutputStream;
import javax.annotation.processing.Processor;

/** Runs a processor over two streams. */
public final class Runner {
    private Runner() {}

    /**
     * Runs a processor as a child of the host until the host ends the talk.
     *
     * @param name the name of its class, which is on the class path
     * @return whether the talk ended in order; if not, the standard error says why
     */
    public static boolean run(String name, Answers.Claim claim, InputStream from, OutputStream to) {
        try {
            // It is made ready where an object of it is made: what fails then is a failure of the processor.
            Class<?> named = Class.forName(name, false, Runner.class.getClassLoader());
            if (!Processor.class.isAssignableFrom(named)) {
                System.err.println(name + " is no annotation processor");
                return false;
            }
            Class<? extends Processor> type = named.asSubclass(Processor.class);
            Talk talk = new Talk(new BufferedInputStream(from), new BufferedOutputStream(to));
            new Session(talk, type, claim).run();
            talk.printExchanges(System.err);
            return true;
        } catch (ClassNotFoundException e) {
            System.err.println("no class " + name + " on the class path");
        } catch (ReflectiveOperationException e) {
            System.err.println(name + " can't be made: " + e);
        } catch (LinkageError e) {
            System.err.println(name + " can't be loaded: " + e);
        } catch (IOException e) {
            System.err.println(e.getMessage());
        }
        return false;
    }
}
