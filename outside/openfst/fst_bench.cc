// Finds the best date of each line with OpenFst, and times it.
//
//     fst_bench FILE ROUNDS
//
// FILE has for each line its best total or -1, how many cells, and for each cell how many alternatives and their symbols and
// penalties. Printed are the median time of a line in microseconds, on how many lines the best total is the one of the file, how
// many lines have one there, on how many a date was found, and how many states the acceptor of dates has.

#include <fst/fstlib.h>

#include <time.h>

#include <algorithm>
#include <cstdio>
#include <cstdlib>
#include <fstream>
#include <map>
#include <string>
#include <vector>

using fst::StdArc;
using fst::StdVectorFst;
using Weight = StdArc::Weight;

struct Alternative {
  int symbol;
  int penalty;
};

struct Line {
  long best;
  std::vector<std::vector<Alternative>> cells;
};

static std::vector<Line> ReadLines(const char *file) {
  std::ifstream from(file);
  std::vector<Line> lines;
  Line line;
  size_t cells;
  while (from >> line.best >> cells) {
    line.cells.assign(cells, {});
    for (auto &cell : line.cells) {
      size_t count;
      from >> count;
      cell.resize(count);
      for (auto &one : cell) from >> one.symbol >> one.penalty;
    }
    lines.push_back(line);
  }
  return lines;
}

static int DaysOf(int month, int year) {
  static const int days[] = {31, 28, 31, 30, 31, 30, 31, 31, 30, 31, 30, 31};
  bool leap = year % 4 == 0 && (year % 100 != 0 || year % 400 == 0);
  return month == 2 && leap ? 29 : days[month - 1];
}

// Adds a path for the text, along the states that are there already.
static void AddText(StdVectorFst *dates, std::map<std::pair<int, int>, int> *next, const char *text) {
  int state = dates->Start();
  for (; *text; text++) {
    auto found = next->find({state, *text});
    if (found != next->end()) {
      state = found->second;
      continue;
    }
    int to = dates->AddState();
    dates->AddArc(state, StdArc(*text, *text, Weight::One(), to));
    (*next)[{state, *text}] = to;
    state = to;
  }
  dates->SetFinal(state, Weight::One());
}

// The minimised acceptor of all dates DDMMYYYY from 1900 to 2099.
static StdVectorFst Dates() {
  StdVectorFst dates;
  std::map<std::pair<int, int>, int> next;
  dates.SetStart(dates.AddState());
  for (int year = 1900; year <= 2099; year++) {
    for (int month = 1; month <= 12; month++) {
      for (int day = 1; day <= DaysOf(month, year); day++) {
        char text[32];
        snprintf(text, sizeof text, "%02d%02d%04d", day, month, year);
        AddText(&dates, &next, text);
      }
    }
  }
  fst::Minimize(&dates);
  fst::ArcSort(&dates, fst::ILabelCompare<StdArc>());
  return dates;
}

static StdVectorFst Lattice(const Line &line) {
  StdVectorFst lattice;
  lattice.ReserveStates(line.cells.size() + 1);
  int state = lattice.AddState();
  lattice.SetStart(state);
  for (const auto &cell : line.cells) {
    int to = lattice.AddState();
    for (const auto &one : cell) lattice.AddArc(state, StdArc(one.symbol, one.symbol, Weight(one.penalty), to));
    state = to;
  }
  lattice.SetFinal(state, Weight::One());
  return lattice;
}

// The total of the best date of the line, or -1.
static long BestTotal(const Line &line, const StdVectorFst &dates) {
  StdVectorFst composed, best;
  fst::Compose(Lattice(line), dates, &composed);
  fst::ShortestPath(composed, &best);
  if (best.Start() == fst::kNoStateId) return -1;
  double total = 0;
  int state = best.Start();
  while (best.NumArcs(state) > 0) {
    fst::ArcIterator<StdVectorFst> arcs(best, state);
    total += arcs.Value().weight.Value();
    state = arcs.Value().nextstate;
  }
  return static_cast<long>(total + best.Final(state).Value());
}

// The time that the processor worked for this thread.
static double Microseconds() {
  timespec time;
  clock_gettime(CLOCK_THREAD_CPUTIME_ID, &time);
  return time.tv_sec * 1e6 + time.tv_nsec / 1e3;
}

int main(int count, char **words) {
  if (count != 3) return 2;
  const std::vector<Line> lines = ReadLines(words[1]);
  const int rounds = std::max(1, std::atoi(words[2]));
  const StdVectorFst dates = Dates();
  std::vector<double> times;
  std::vector<long> totals(lines.size());
  for (int round = 0; round < rounds; round++) {
    double start = Microseconds();
    for (size_t i = 0; i < lines.size(); i++) totals[i] = BestTotal(lines[i], dates);
    times.push_back((Microseconds() - start) / lines.size());
  }
  std::sort(times.begin(), times.end());
  size_t compared = 0, agreed = 0, found = 0;
  for (size_t i = 0; i < lines.size(); i++) {
    if (totals[i] >= 0) found++;
    if (lines[i].best < 0) continue;
    compared++;
    if (totals[i] == lines[i].best) agreed++;
  }
  printf("%.4f %zu %zu %zu %lld\n", times[times.size() / 2], agreed, compared, found, static_cast<long long>(dates.NumStates()));
  return 0;
}
