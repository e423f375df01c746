package dinxobhe.bridge;

import dinxobhe.frames.Answers;
import dinxobhe.frames.Frame;
import dinxobhe.frames.Tag;
import java.io.IOException;
import java.lang.reflect.InvocationTargetException;
import java.util.List;
import java.util.Optional;
import java.util.Set;
import java.util.stream.Collectors;
import javax.annotation.processing.Processor;
import javax.lang.model.SourceVersion;
import javax.lang.model.element.TypeElement;
import javax.tools.Diagnostic;

/** A talk with the host, from its first frame to its last, in which one processor is run. */
final class Session {
    private final Talk talk;
    private final Class<? extends Processor> type;
    private Answers.Claim claim;
    private Environment environment;
    private Supported supported;
    /** Why it can't say what it supports before it is initialised with what the host answers. */
    private Optional<Throwable> whyLate = Optional.empty();
    /** The processor, once the first round has begun. */
    private Processor processor;
    private boolean isCalled;
    private boolean hasFailed;

    Session(Talk talk, Class<? extends Processor> type, Answers.Claim claim) {
        this.talk = talk;
        this.type = type;
        this.claim = claim;
    }

    void run() throws IOException, ReflectiveOperationException {
        Optional<Frame> init = talk.next();
        if (init.isEmpty()) {
            return;
        }
        check(init.get(), Tag.INIT);
        supported = supportedBefore(new Environment(new NothingKnown(), init.get()));
        talk.say(supported.hello(ProcessorKind.optionsOf(type), claim));
        environment = new Environment(talk, init.get());
        for (Optional<Frame> round = talk.next(); round.isPresent(); round = talk.next()) {
            check(round.get(), Tag.ROUND);
            environment.model().beginRound();
            talk.beginRound();
            talk.endRound(new Frame(Tag.DONE, claimed(round.get())));
        }
    }

    private static void check(Frame frame, Tag expected) throws IOException {
        if (frame.tag() != expected) {
            throw new IOException("the host sends " + frame.tag() + " and not " + expected);
        }
    }

    private Processor instance() throws ReflectiveOperationException {
        return type.getDeclaredConstructor().newInstance();
    }

    /**
     * What the processor supports, as it says that before the first round. One that fails is asked again in
     * the first round. Until then it supports all annotations, and it never claims them.
     */
    private Supported supportedBefore(Environment before) throws ReflectiveOperationException {
        try {
            return Supported.by(instance(), before);
        } catch (InvocationTargetException | RuntimeException | Error e) {
            whyLate = Optional.of(e);
            claim = Answers.Claim.NEVER;
            return Supported.everything();
        }
    }

    /** Runs the processor in a round. Whether it claims what it was offered. */
    private boolean claimed(Frame round) throws IOException {
        boolean isClaimed = claim == Answers.Claim.ALWAYS;
        if (hasFailed) {
            return isClaimed;
        }
        try {
            begin();
            List<String> names = round.list(3, String.class).stream().filter(supported::isSupported)
                .collect(Collectors.toList());
            Set<TypeElement> offered = environment.model().offered(names, supported::isSupported);
            if (offered.isEmpty() && !supported.isEverything() && !isCalled) {
                return isClaimed;
            }
            isCalled = true;
            boolean claims = processor.process(offered, new HostRoundEnvironment(environment.model(), round));
            if (round.truth(1)) {
                warnOfUnclosed();
            }
            return claims && whyLate.isEmpty();
        } catch (Exception | Error e) {
            talk.checkIsWhole();
            fail(e);
            return isClaimed;
        }
    }

    private void begin() throws ReflectiveOperationException {
        if (processor != null) {
            return;
        }
        processor = instance();
        processor.init(environment);
        // They are asked again, since javac asks after this too, and some print warnings then.
        SourceVersion version = processor.getSupportedSourceVersion();
        supported = Supported.asked(processor);
        if (version.compareTo(environment.getSourceVersion()) < 0) {
            warn("Supported source version '" + version + "' from annotation processor '" + type.getName()
                + "' less than -source '" + environment.getSourceVersion().ordinal() + "'");
        }
    }

    private void warnOfUnclosed() {
        List<String> unclosed = environment.getFiler().unclosed();
        if (!unclosed.isEmpty()) {
            warn("Unclosed files for the types '" + String.join(",", unclosed)
                + "'; these types will not undergo annotation processing");
        }
    }

    private void warn(String text) {
        environment.getMessager().printMessage(Diagnostic.Kind.WARNING, text);
    }

    private void fail(Throwable caught) {
        hasFailed = true;
        // A class that can't be made ready says why the first time alone.
        Throwable first = processor == null ? whyLate.orElse(caught) : caught;
        boolean isAround =
            first instanceof InvocationTargetException || first instanceof ExceptionInInitializerError;
        Throwable thrown = isAround && first.getCause() != null ? first.getCause() : first;
        thrown.printStackTrace();
        environment.getMessager().printMessage(Diagnostic.Kind.ERROR, Failure.text(type.getName(), thrown));
    }
}
