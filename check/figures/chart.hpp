// A plain SVG chart: axes, lines and marks. No more than the two figures need.
#pragma once
#include <cmath>
#include <cstdio>
#include <string>
#include <vector>

struct Axis {
  std::string title;
  double low, high;
  std::vector<double> ticks;
  bool logarithmic;
  // Where a value lies between the ends, from 0 to 1.
  double share(double value) const {
    const auto scale = [this](double x) { return logarithmic ? std::log(x) : x; };
    return (scale(value) - scale(low)) / (scale(high) - scale(low));
  }
};

struct Point {
  double x, y;
};

class Chart {
public:
  Chart(const std::string &title, const Axis &across, const Axis &up) : across(across), up(up) {
    add("<svg xmlns='http://www.w3.org/2000/svg' viewBox='0 0 720 460' font-family='sans-serif' "
        "font-size='13'>");
    add("<rect width='720' height='460' fill='white'/>");
    text(360, 24, "middle", title);
    for (double tick : across.ticks) {
      line(left_of(tick), bottom, left_of(tick), bottom + 5, "black", "");
      text(left_of(tick), bottom + 20, "middle", number(tick));
    }
    for (double tick : up.ticks) {
      line(left, top_of(tick), right, top_of(tick), "#dddddd", "");
      text(left - 8, top_of(tick) + 4, "end", number(tick));
    }
    line(left, bottom, right, bottom, "black", "");
    line(left, top, left, bottom, "black", "");
    text((left + right) / 2, bottom + 42, "middle", across.title);
    text(left, top - 10, "start", up.title);
  }
  void curve(const std::vector<Point> &points, const char *colour, const char *dashes,
             const std::string &name) {
    for (size_t k = 1; k < points.size(); ++k)
      line(left_of(points[k - 1].x), top_of(points[k - 1].y), left_of(points[k].x), top_of(points[k].y),
           colour, dashes);
    key += 18;
    line(left + 14, key - 4, left + 44, key - 4, colour, dashes);
    text(left + 54, key, "start", name);
  }
  void marks(const std::vector<Point> &points, const char *colour, const std::string &name) {
    for (const Point &point : points) circle(left_of(point.x), top_of(point.y), colour);
    key += 18;
    circle(left + 29, key - 4, colour);
    text(left + 54, key, "start", name);
  }
  std::string finish() { return svg + "</svg>\n"; }

private:
  const Axis across, up;
  const double left = 70, right = 690, top = 60, bottom = 400;
  double key = 62;
  std::string svg;

  double left_of(double x) const { return left + (right - left) * across.share(x); }
  double top_of(double y) const { return bottom - (bottom - top) * up.share(y); }
  static std::string number(double value) {
    char digits[32];
    std::snprintf(digits, sizeof digits, "%g", value);
    return digits;
  }
  void add(const std::string &element) { svg += element + "\n"; }
  void text(double x, double y, const char *anchor, const std::string &words) {
    add("<text x='" + number(x) + "' y='" + number(y) + "' text-anchor='" + anchor + "'>" + words +
        "</text>");
  }
  void line(double x1, double y1, double x2, double y2, const char *colour, const char *dashes) {
    add("<line x1='" + number(x1) + "' y1='" + number(y1) + "' x2='" + number(x2) + "' y2='" + number(y2) +
        "' stroke='" + colour + "'" + (*dashes ? std::string(" stroke-dasharray='") + dashes + "'" : "") +
        "/>");
  }
  void circle(double x, double y, const char *colour) {
    add("<circle cx='" + number(x) + "' cy='" + number(y) + "' r='4' fill='none' stroke-width='2' stroke='" +
        colour + "'/>");
  }
};

inline bool write_text(const std::string &path, const std::string &text) {
  std::FILE *file = std::fopen(path.c_str(), "wb");
  return file && std::fwrite(text.data(), 1, text.size(), file) == text.size() && std::fclose(file) == 0;
}
