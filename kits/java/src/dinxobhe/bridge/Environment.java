package dinxobhe.bridge;

import dinxobhe.frames.Frame;
import dinxobhe.frames.Option;
import dinxobhe.model.Host;
import dinxobhe.model.Model;
import java.util.Collections;
import java.util.LinkedHashMap;
import java.util.Locale;
import java.util.Map;
import javax.annotation.processing.ProcessingEnvironment;
import javax.lang.model.SourceVersion;
import javax.lang.model.util.Elements;
import javax.lang.model.util.Types;

/** What a processor is given when it is initialised. */
final class Environment implements ProcessingEnvironment {
    private final Model model;
    private final HostMessager messager;
    private final HostFiler filer;
    private final Map<String, String> options = new LinkedHashMap<>();
    private final SourceVersion sourceVersion;

    Environment(Host host, Frame init) {
        model = new Model(host);
        messager = new HostMessager(host);
        filer = new HostFiler(host);
        // An option without a value is null for a processor, and the empty text for the host.
        init.list(2, Option.class)
            .forEach(one -> options.put(one.key(), one.value().isEmpty() ? null : one.value()));
        sourceVersion = version(init.field(1, Integer.class));
    }

    private static SourceVersion version(int level) {
        SourceVersion[] versions = SourceVersion.values();
        return versions[Math.min(level, versions.length - 1)];
    }

    Model model() {
        return model;
    }

    @Override
    public Map<String, String> getOptions() {
        return Collections.unmodifiableMap(options);
    }

    @Override
    public HostMessager getMessager() {
        return messager;
    }

    @Override
    public HostFiler getFiler() {
        return filer;
    }

    @Override
    public Elements getElementUtils() {
        return model.elementUtils();
    }

    @Override
    public Types getTypeUtils() {
        return model.typeUtils();
    }

    @Override
    public SourceVersion getSourceVersion() {
        return sourceVersion;
    }

    @Override
    public Locale getLocale() {
        return Locale.getDefault();
    }
}
