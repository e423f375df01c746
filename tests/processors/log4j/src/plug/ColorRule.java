package plug;

import org.apache.logging.log4j.core.config.Node;
import org.apache.logging.log4j.core.config.plugins.Plugin;
import org.apache.logging.log4j.core.config.plugins.PluginElement;
import org.apache.logging.log4j.core.config.plugins.PluginFactory;
import org.apache.logging.log4j.core.config.plugins.PluginValue;

@Plugin(name = "ColorRule", category = Node.CATEGORY)
public final class ColorRule {
  private final String color;
  private final Shade[] shades;

  private ColorRule(final String color, final Shade[] shades) {
    this.color = color;
    this.shades = shades;
  }

  @PluginFactory
  public static ColorRule create(@PluginValue("color") final String color,
      @PluginElement("Shades") final Shade[] shades) {
    return new ColorRule(color, shades);
  }

  /** A plugin in another one. */
  @Plugin(name = "Shade", category = Node.CATEGORY, deferChildren = true)
  public static final class Shade {
    private Shade() {}

    @PluginFactory public static Shade create() { return new Shade(); }

    /** And one in that. */
    @Plugin(name = "Dark", category = Node.CATEGORY, elementType = "shade")
    public static final class Dark {}
  }
}
