package plug;

import org.apache.logging.log4j.core.LoggerContext;
import org.apache.logging.log4j.core.config.Configuration;
import org.apache.logging.log4j.core.config.ConfigurationFactory;
import org.apache.logging.log4j.core.config.ConfigurationSource;
import org.apache.logging.log4j.core.config.Order;
import org.apache.logging.log4j.core.config.plugins.Plugin;

@Plugin(name = "IniFactory", category = ConfigurationFactory.CATEGORY)
@Order(5)
public class IniFactory extends ConfigurationFactory {
  @Override protected String[] getSupportedTypes() { return new String[] {".ini", "*"}; }

  @Override public Configuration getConfiguration(final LoggerContext context, final ConfigurationSource source) {
    return null;
  }
}
