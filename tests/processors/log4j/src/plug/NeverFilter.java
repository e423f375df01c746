package plug;

import org.apache.logging.log4j.core.Filter;
import org.apache.logging.log4j.core.LogEvent;
import org.apache.logging.log4j.core.config.Node;
import org.apache.logging.log4j.core.config.plugins.Plugin;
import org.apache.logging.log4j.core.config.plugins.PluginAliases;
import org.apache.logging.log4j.core.config.plugins.PluginAttribute;
import org.apache.logging.log4j.core.config.plugins.PluginFactory;
import org.apache.logging.log4j.core.filter.AbstractFilter;

@Plugin(name = "NeverFilter", category = Node.CATEGORY, elementType = Filter.ELEMENT_TYPE, printObject = true)
@PluginAliases("Never")
public final class NeverFilter extends AbstractFilter {
  private NeverFilter(final Result onMatch, final Result onMismatch) { super(onMatch, onMismatch); }

  @Override public Result filter(final LogEvent event) { return Result.DENY; }

  @PluginFactory
  public static NeverFilter createFilter(
      @PluginAttribute(value = "onMatch", defaultString = "NEUTRAL") final Result onMatch,
      @PluginAttribute(value = "onMismatch", defaultString = "DENY") final Result onMismatch) {
    return new NeverFilter(onMatch, onMismatch);
  }
}
