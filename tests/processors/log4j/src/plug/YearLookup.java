package plug;

import org.apache.logging.log4j.core.LogEvent;
import org.apache.logging.log4j.core.config.plugins.Plugin;
import org.apache.logging.log4j.core.lookup.AbstractLookup;
import org.apache.logging.log4j.core.lookup.StrLookup;

@Plugin(name = "year", category = StrLookup.CATEGORY)
public class YearLookup extends AbstractLookup {
  @Override public String lookup(final LogEvent event, final String key) { return "2000"; }
}
