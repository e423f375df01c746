package dinxobhe.bridge;

import dinxobhe.frames.Frame;
import dinxobhe.model.Host;
import java.io.IOException;
import java.io.InputStream;
import java.io.OutputStream;
import java.io.PrintStream;
import java.io.UncheckedIOException;
import java.util.Optional;

/** Frames from the host and to it. While a round lasts, each frame to the host is answered by one. */
final class Talk implements Host {
    /** Asks for the exchanges to be counted. */
    private static final String COUNTS = "dinxobhe.exchanges";

    private final InputStream from;
    private final OutputStream to;
    private final Optional<Exchanges> exchanges =
        Boolean.getBoolean(COUNTS) ? Optional.of(new Exchanges()) : Optional.empty();
    private boolean isInRound;
    /** Why nothing more can be read or written, once that is so. */
    private IOException fault;

    Talk(InputStream from, OutputStream to) {
        this.from = from;
        this.to = to;
    }

    /** The next frame that begins something; none where the host has ended the talk. */
    Optional<Frame> next() throws IOException {
        return Frame.read(from);
    }

    void say(Frame frame) throws IOException {
        frame.writeTo(to);
    }

    synchronized void beginRound() {
        isInRound = true;
    }

    /** Ends a round by its last frame. */
    synchronized void endRound(Frame done) throws IOException {
        isInRound = false;
        say(done);
    }

    /** Throws what keeps anything more from being read or written, if there is such a fault. */
    synchronized void checkIsWhole() throws IOException {
        if (fault != null) {
            throw fault;
        }
    }

    /** Prints how many exchanges there were, if that was asked for. */
    synchronized void printExchanges(PrintStream to) {
        exchanges.ifPresent(counts -> counts.print(to));
    }

    @Override
    public synchronized Frame reply(Frame question) {
        if (fault != null) {
            throw new UncheckedIOException(fault);
        }
        if (!isInRound) {
            throw new UnsupportedOperationException(
                "outside of a round the host answers nothing: " + question.tag());
        }
        byte[] bytes = question.bytes();
        if (Frame.isTooLong(bytes)) {
            throw new IllegalArgumentException("longer than a frame may be: " + question.tag());
        }
        long start = System.nanoTime();
        try {
            to.write(bytes);
            to.flush();
            Frame reply = next().orElseThrow(() -> new IOException("the host ends the talk in a round"));
            exchanges.ifPresent(counts -> counts.add(question.tag(), System.nanoTime() - start));
            return reply;
        } catch (IOException e) {
            fault = e;
            throw new UncheckedIOException(e);
        }
    }
}
