package plug;

import org.apache.logging.log4j.core.LogEvent;
import org.apache.logging.log4j.core.config.plugins.Plugin;
import org.apache.logging.log4j.core.pattern.*;

@Plugin(name = "SecondsConverter", category = PatternConverter.CATEGORY)
@ConverterKeys("seconds")
public final class SecondsConverter extends LogEventPatternConverter {
  private SecondsConverter() { super("Seconds", "seconds"); }

  public static SecondsConverter newInstance(final String[] options) { return new SecondsConverter(); }

  @Override public void format(final LogEvent event, final StringBuilder to) {
    to.append(event.getTimeMillis() / 1000);
  }
}
