// Draws a QR code as SVG: c++ svg.cpp $(pkg-config --cflags --libs labels)
#include <iostream>
#include <labels.h>
#include <string>
#include <vector>

int main() {
    const std::string data = "https://debian.org";
    std::vector<unsigned char> modules(LABELS_MAX_MODULES);
    labels_symbol_info info;
    labels_answer answer;
    if (labels_symbol(nullptr, LABELS_QR, data.data(), data.size(), modules.data(), modules.size(), &info, &answer)) {
        std::cerr << answer.message << "\n";
        return 1;
    }
    const auto width = info.left + info.width + info.right;
    const auto height = info.top + info.height + info.bottom;
    std::cout << "<svg xmlns='http://www.w3.org/2000/svg' viewBox='0 0 " << width << " " << height << "' width='"
              << 4 * width << "'><path fill='white' d='M0 0h" << width << "v" << height << "h-" << width
              << "z'/><path d='";
    // A row of a QR code is one module high; the one row of a bar code is as high as the symbol.
    const auto high = info.height / info.rows;
    for (size_t y = 0; y < info.rows; y++)
        for (size_t x = 0; x < info.width; x++)
            if (modules[y * info.width + x])
                std::cout << "M" << info.left + x << " " << info.top + y * high << "h1v" << high << "h-1z";
    std::cout << "'/></svg>\n";
}
