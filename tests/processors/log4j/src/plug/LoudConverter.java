package plug;

import org.apache.logging.log4j.core.LogEvent;
import org.apache.logging.log4j.core.config.plugins.Plugin;
import org.apache.logging.log4j.core.pattern.ConverterKeys;
import org.apache.logging.log4j.core.pattern.LogEventPatternConverter;
import org.apache.logging.log4j.core.pattern.PatternConverter;

/** The message in capitals. */
@Plugin(name = "LoudConverter", category = PatternConverter.CATEGORY)
@ConverterKeys({"loud", "shout"})
public final class LoudConverter extends LogEventPatternConverter {
  private LoudConverter() { super("Loud", "loud"); }

  public static LoudConverter newInstance(final String[] options) { return new LoudConverter(); }

  @Override public void format(final LogEvent event, final StringBuilder to) {
    to.append(event.getMessage().getFormattedMessage().toUpperCase());
  }
}
