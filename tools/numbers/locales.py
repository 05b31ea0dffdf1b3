"""What each locale writes numbers by, from ICU's resources: inheritance and aliases are resolved here as ICU does it."""

from resources import Alias, Folder

MISSING = object()


class Locales:
    def __init__(self, icu):
        self.main = Folder(icu)
        self.curr = Folder(f"{icu}/curr")
        supplement = self.main["supplementalData"]
        self.parents = {}
        for parent, children in supplement["parentLocales"].items():
            for child in [children] if isinstance(children, str) else children:
                self.parents[child] = parent

    def real(self, folder, locale):
        """The locale that a bundle is an alias of, if it is one."""
        while locale in folder and "%%ALIAS" in folder[locale]:
            locale = folder[locale]["%%ALIAS"]
        return locale

    def parent(self, folder, locale):
        if locale == "root":
            return None
        if locale in folder and "%%Parent" in folder[locale]:
            return folder[locale]["%%Parent"]
        if locale in self.parents:
            return self.parents[locale]
        return locale.rsplit("_", 1)[0] if "_" in locale else "root"

    def chain(self, folder, locale):
        locale = self.real(folder, locale)
        while locale is not None:
            if locale in folder:
                yield folder[locale]
            locale = self.parent(folder, locale)
            if locale is not None:
                locale = self.real(folder, locale)

    def get(self, folder, locale, path, depth=0):
        """The resource of a path: the first that the locale or a parent has; an alias begins anew at the locale."""
        if depth > 20:
            raise ValueError(f"aliases in a circle at {locale} {path}")
        parts = path.split("/")
        for bundle in self.chain(folder, locale):
            value = bundle
            for k, part in enumerate(parts):
                if isinstance(value, Alias):
                    rest = parts[k:]
                    found = self.get(folder, locale, "/".join([value.split("/LOCALE/")[1], *rest]), depth + 1)
                    return found
                value = value.get(part, MISSING) if isinstance(value, dict) else MISSING
                if value is MISSING:
                    break
            if value is MISSING:
                continue
            if isinstance(value, Alias):
                return self.get(folder, locale, value.split("/LOCALE/")[1], depth + 1)
            return value
        return None

    def symbol(self, locale, system, name):
        for ns in dict.fromkeys([system, "latn"]):
            value = self.get(self.main, locale, f"NumberElements/{ns}/symbols/{name}")
            if value is not None:
                return value
        return None

    def pattern(self, locale, system, name):
        for ns in dict.fromkeys([system, "latn"]):
            value = self.get(self.main, locale, f"NumberElements/{ns}/patterns/{name}")
            if value is not None:
                return value
        return None

    def forms(self, locale):
        system = self.get(self.main, locale, "NumberElements/default")
        grouping = self.get(self.main, locale, "NumberElements/minimumGroupingDigits")
        spacing = {
            side: tuple(
                self.get(self.curr, locale, f"currencySpacing/{side}/{key}")
                for key in ("currencyMatch", "surroundingMatch", "insertBetween")
            )
            for side in ("beforeCurrency", "afterCurrency")
        }
        names = ("decimal", "group", "minusSign", "percentSign", "currencyDecimal", "currencyGroup")
        patterns = ("decimalFormat", "percentFormat", "currencyFormat", "currencyFormat%alphaNextToNumber", "currencyFormat%noCurrency")
        return {
            "system": system,
            "grouping": grouping,
            "symbols": {name: self.symbol(locale, system, name) for name in names},
            "patterns": {name: self.pattern(locale, system, name) for name in patterns},
            "spacing": spacing,
        }

    def currencies(self, locale):
        """The symbols of currencies: the nearest entry of each code."""
        found = {}
        for bundle in reversed(list(self.chain(self.curr, locale))):
            for code, entry in bundle.get("Currencies", {}).items():
                found[code] = entry
        return found
