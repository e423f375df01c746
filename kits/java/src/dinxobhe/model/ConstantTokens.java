package dinxobhe.model;

import java.util.ArrayList;
import java.util.List;
import java.util.Locale;
import java.util.regex.Matcher;
import java.util.regex.Pattern;

/** The tokens of constant expressions, and the values of literals. */
final class ConstantTokens {
    private static final String DIGITS = "0[xX][\\da-fA-F_]*\\.?[\\da-fA-F_]*(?:[pP][+-]?\\d+)?|0[bB][01_]+"
        + "|\\d[\\d_]*\\.?[\\d_]*(?:[eE][+-]?\\d+)?|\\.\\d[\\d_]*(?:[eE][+-]?\\d+)?";
    private static final Pattern TOKEN = Pattern.compile("\\s*(" + "(?:" + DIGITS + ")[lLfFdD]?"
        + "|'(?:\\\\u+[\\da-fA-F]{4}|\\\\[0-7]{1,3}|\\\\.|[^'\\\\])'|\"(?:\\\\.|[^\"\\\\])*\""
        + "|[\\p{L}_$][\\p{L}\\d_$.]*|>>>|<<|>>|<=|>=|==|!=|&&|\\|\\||[-+*/%<>&|^!~?:()])\\s*");
    private static final Pattern ESCAPE =
        Pattern.compile("\\\\(?:u+([\\da-fA-F]{4})|([0-3]?[0-7]{1,2})|(.))");

    private ConstantTokens() {}

    static List<String> of(String text) throws ConstantExpression.NotConstant {
        List<String> tokens = new ArrayList<>();
        Matcher matcher = TOKEN.matcher(text);
        int end = 0;
        while (end < text.length()) {
            if (!matcher.find(end) || matcher.start() != end) {
                throw new ConstantExpression.NotConstant(text);
            }
            tokens.add(matcher.group(1));
            end = matcher.end();
        }
        return tokens;
    }

    static boolean isNumber(String token) {
        return !token.isEmpty() && (Character.isDigit(token.charAt(0)) || token.charAt(0) == '.');
    }

    /** The value of a literal, or of a number with a minus before it. */
    static Object value(String token) throws ConstantExpression.NotConstant {
        if (token.equals("true") || token.equals("false")) {
            return token.equals("true");
        }
        char first = token.charAt(0);
        if (first == '"') {
            return unescaped(token);
        }
        if (first == '\'') {
            return unescaped(token).charAt(0);
        }
        if (isNumber(first == '-' ? token.substring(1) : token)) {
            return number(token.replace("_", ""));
        }
        throw new ConstantExpression.NotConstant(token);
    }

    private static Object number(String token) throws ConstantExpression.NotConstant {
        boolean isNegative = token.charAt(0) == '-';
        String digits = (isNegative ? token.substring(1) : token).toLowerCase(Locale.ROOT);
        boolean isHexadecimal = digits.startsWith("0x");
        boolean isFloating = isHexadecimal ? digits.indexOf('p') >= 0
            : digits.matches("[\\d.]*[.e].*|\\d+[fd]");
        if (isFloating) {
            return Constants.floating(token).orElseThrow(() -> new ConstantExpression.NotConstant(token));
        }
        boolean isLong = digits.endsWith("l");
        String whole = isLong ? digits.substring(0, digits.length() - 1) : digits;
        boolean isBinary = whole.startsWith("0b");
        boolean isOctal = whole.length() > 1 && whole.charAt(0) == '0' && !isHexadecimal && !isBinary;
        if (!isHexadecimal && !isBinary && !isOctal) {
            String signed = (isNegative ? "-" : "") + whole;
            return isLong ? (Object) Long.parseLong(signed) : (Object) Integer.parseInt(signed);
        }
        int radix = isHexadecimal ? 16 : isBinary ? 2 : 8;
        String bits = whole.substring(isOctal ? 1 : 2);
        return isLong ? (Object) signed(Long.parseUnsignedLong(bits, radix), isNegative)
            : (Object) (int) signed(Integer.parseUnsignedInt(bits, radix), isNegative);
    }

    private static long signed(long number, boolean isNegative) {
        return isNegative ? -number : number;
    }

    private static String unescaped(String literal) {
        Matcher matcher = ESCAPE.matcher(literal.substring(1, literal.length() - 1));
        return matcher.replaceAll(found -> Matcher.quoteReplacement(String.valueOf(
            found.group(1) != null ? (char) Integer.parseInt(found.group(1), 16)
            : found.group(2) != null ? (char) Integer.parseInt(found.group(2), 8)
            : escaped(found.group(3).charAt(0)))));
    }

    private static char escaped(char letter) {
        int named = "btnfrs".indexOf(letter);
        return named < 0 ? letter : "\b\t\n\f\r ".charAt(named);
    }
}
