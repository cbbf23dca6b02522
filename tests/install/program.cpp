// Uses what is installed, from C++: the version, expressions in both editions and a file. It prints what program.c prints.
#include <cstdint>
#include <iostream>
#include <korzhinay.h>
#include <string>
#include <vector>

static const std::uint8_t *bytes(const std::string &text)
{
    return reinterpret_cast<const std::uint8_t *>(text.data());
}

static korzhinay_refusal evaluate(const std::string &text, korzhinay_dialect edition, std::uint64_t out[7])
{
    return static_cast<korzhinay_refusal>(
        korzhinay_evaluate(bytes(text), text.size(), nullptr, 0, static_cast<std::uint8_t>(edition), out));
}

int main()
{
    const std::string file = "!ifndef $(NOPE)\na\n!else\nb\n!endif\n";
    std::vector<std::uint8_t> marks(KORZHINAY_MAX_LINES);
    std::uint64_t value[7], selected[4];

    std::cout << "version " << KORZHINAY_VERSION << ": " << KORZHINAY_VERSION_MAJOR << " " << KORZHINAY_VERSION_MINOR << " "
              << KORZHINAY_VERSION_PATCH << "\n";
    if (evaluate("1 + 2 * 3", KORZHINAY_EDITION_NEW, value) == 0)
        std::cout << "1 + 2 * 3 = " << value[1] << "\n";
    if (evaluate("1 / 0", KORZHINAY_EDITION_NEW, value) == KORZHINAY_REFUSAL_DIVISOR_ZERO)
        std::cout << "1 / 0: " << korzhinay_meaning(KORZHINAY_REFUSAL_DIVISOR_ZERO) << ", at " << value[6] << "\n";
    if (evaluate("'a' == a", KORZHINAY_EDITION_OLD, value) == 0)
        std::cout << "'a' == a = " << value[1] << "\n";
    if (evaluate("'a' == a", KORZHINAY_EDITION_NEW, value) == KORZHINAY_REFUSAL_TOKEN_BAD)
        std::cout << "'a' == a: " << korzhinay_meaning(KORZHINAY_REFUSAL_TOKEN_BAD) << ", at " << value[6] << "\n";
    if (korzhinay_select(marks.data(), marks.size(), bytes(file), file.size(), nullptr, 0, KORZHINAY_EDITION_OLD, selected) == 0)
        for (std::uint64_t line = 0; line < selected[1]; line++)
            std::cout << int(marks[line]) << (line + 1 < selected[1] ? ' ' : '\n');
    return 0;
}
