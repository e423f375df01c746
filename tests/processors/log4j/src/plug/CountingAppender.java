package plug;

import java.io.Serializable;
import org.apache.logging.log4j.core.Appender;
import org.apache.logging.log4j.core.Core;
import org.apache.logging.log4j.core.Filter;
import org.apache.logging.log4j.core.Layout;
import org.apache.logging.log4j.core.LogEvent;
import org.apache.logging.log4j.core.appender.AbstractAppender;
import org.apache.logging.log4j.core.config.Property;
import org.apache.logging.log4j.core.config.plugins.Plugin;
import org.apache.logging.log4j.core.config.plugins.PluginBuilderFactory;

@Plugin(name = CountingAppender.PLUGIN_NAME, category = Core.CATEGORY_NAME, elementType = Appender.ELEMENT_TYPE,
    printObject = true)
public final class CountingAppender extends AbstractAppender {
  public static final String PLUGIN_NAME = "Counting";

  private long count;

  /** Builds the appender. */
  public static class Builder<B extends Builder<B>> extends AbstractAppender.Builder<B>
      implements org.apache.logging.log4j.core.util.Builder<CountingAppender> {
    @Override public CountingAppender build() {
      return new CountingAppender(getName(), getLayout(), getFilter(), isIgnoreExceptions(), getPropertyArray());
    }
  }

  @PluginBuilderFactory
  public static <B extends Builder<B>> B newBuilder() { return new Builder<B>().asBuilder(); }

  private CountingAppender(final String name, final Layout<? extends Serializable> layout, final Filter filter,
      final boolean ignoreExceptions, final Property[] properties) {
    super(name, filter, layout, ignoreExceptions, properties);
  }

  @Override public void append(final LogEvent event) { count++; }
}
