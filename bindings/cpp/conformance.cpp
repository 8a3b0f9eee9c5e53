// Does the calls of the table of conformance, of which bindings/conformance/README.md says what its lines are, and compares the
// answers: twice, the second time by agents that record.
//
//     conformance FOLDER
#include <folugben.hpp>

#include <cstdint>
#include <cstdio>
#include <fstream>
#include <functional>
#include <map>
#include <optional>
#include <stdexcept>
#include <string>
#include <string_view>
#include <vector>

namespace {

using folugben::code;
using words = std::vector<std::string>;

// The items of a list, split at its commas outside of brackets and strings.
words split(std::string_view line) {
    words all;
    int depth = 0;
    bool is_in_text = false;
    std::string word;
    for (std::size_t i = 1; i + 1 < line.size(); ++i) {
        const char it = line[i];
        if (it == '\\') {
            word += it;
            word += line[++i];
            continue;
        }
        if (it == '"') is_in_text = !is_in_text;
        if (!is_in_text) depth += (it == '[' || it == '{') - (it == ']' || it == '}');
        if (it == ',' && depth == 0 && !is_in_text) {
            all.push_back(std::move(word));
            word.clear();
        } else {
            word += it;
        }
    }
    all.push_back(std::move(word));
    return all;
}

// The line with the items that each {"each":COUNT,"of":ITEM} stands for.
std::string expanded(std::string line) {
    const std::string begin = R"({"each":)", of = R"(,"of":)", place = R"("#")";
    for (std::size_t at = 0; (at = line.find(begin, at)) != std::string::npos;) {
        const auto item = line.find(of, at) + of.size(), end = line.find('}', item);
        const unsigned long count = std::stoul(line.substr(at + begin.size()));
        std::string all;
        for (unsigned long i = 0; i < count; ++i) {
            std::string one = line.substr(item, end - item);
            for (std::size_t to = 0; (to = one.find(place, to)) != std::string::npos;) one.replace(to, place.size(), std::to_string(i));
            all.append(i ? "," : "").append(one);
        }
        line.replace(at, end + 1 - at, all);
    }
    return line;
}

std::string text(const std::string &json) { return folugben::detail::reader(json).text(); }
std::uint32_t number(const std::string &json) { return static_cast<std::uint32_t>(std::stoull(json)); }
std::string member(const char *name, const std::string &json) { return std::string("{\"") + name + "\":" + json + "}"; }
std::string list(std::initializer_list<std::uint64_t> numbers) {
    std::string all;
    for (const std::uint64_t it : numbers) {
        all += all.empty() ? '[' : ',';
        all += std::to_string(it);
    }
    return all += ']';
}

// What a table has of an error.
struct refusal {
    std::string name;
    std::string said;
    std::string numbers;
};

const char *name_of(code it) {
    static const std::map<code, const char *> names = {
        {code::memory, "MEMORY"},       {code::full, "FULL"},             {code::empty, "EMPTY"},
        {code::capacity, "CAPACITY"},   {code::busy, "BUSY"},             {code::many, "MANY"},
        {code::no_answer, "NO_ANSWER"}, {code::taken, "TAKEN"},           {code::number, "NUMBER"},
        {code::other, "OTHER"},         {code::not_json, "NOT_JSON"},     {code::shape, "SHAPE"},
        {code::cut, "CUT"},             {code::version, "VERSION"},       {code::large, "LARGE"},
        {code::moved, "MOVED"},         {code::deep, "DEEP"},             {code::apart, "APART"},
        {code::illegal, "ILLEGAL"},     {code::missing, "MISSING"},       {code::agents, "AGENTS"},
        {code::ahead, "AHEAD"},         {code::operand, "OPERAND"},       {code::no_form, "NO_FORM"},
        {code::no_journal, "NO_JOURNAL"}, {code::no_push, "NO_PUSH"},     {code::no_agent, "NO_AGENT"},
        {code::no_part, "NO_PART"},     {code::not_full, "NOT_FULL"},     {code::many_calls, "MANY_CALLS"},
        {code::long_line, "LONG_LINE"}, {code::long_move, "LONG_MOVE"},
    };
    return names.at(it);
}

class replayer {
  public:
    explicit replayer(bool is_recording) : is_recording_(is_recording) {}
    // The answer to a call, in the words of the table.
    std::string answer(const std::string &name, const words &of) try {
        return calls_.at(name)(of);
    } catch (const folugben::audit_error &error) {
        const bool is_line = error.code() == code::shape || error.code() == code::not_json;
        refused_ = {name_of(error.code()), "", list({error.part()})};
        if (is_line) refused_.numbers = list({error.line(), error.part()});
        if (error.code() == code::illegal) refused_.numbers = list({error.call(), error.part()});
        return "";
    } catch (const folugben::missing &error) {
        refused_ = {"MISSING", "", list({error.number()})};
        return "";
    } catch (const folugben::error &error) {
        const bool has_answer = error.code() == code::stale || error.code() == code::clash || error.code() == code::large;
        if (has_answer) return error.text();
        refused_ = {name_of(error.code()), error.text(), ""};
        if (error.text().starts_with("line ")) {
            const std::string line = error.text().substr(5, error.text().find(':') - 5);
            refused_ = {refused_.name, error.text().substr(std::min(error.text().size(), 7 + line.size())), "[" + line + "]"};
        }
        return "";
    }
    const refusal &refused() const noexcept { return refused_; }

  private:
    folugben::agent &agent(const words &of) { return agents_.at(number(of[0])); }
    // A step that isn't there is one that was moved from.
    folugben::step &step(const words &of) { return steps_.at(number(of[0])); }
    std::string open(folugben::storage it) {
        begin_case();
        storage_.emplace(std::move(it));
        storage_->record(is_recording_);
        return "null";
    }
    void begin_case() {
        steps_.clear();
        moves_.clear();
        agents_.clear();
        read_.clear();
        storage_.reset();
    }
    std::string make(const words &of, folugben::agent it) {
        agents_.insert_or_assign(number(of[0]), std::move(it));
        return "null";
    }
    std::string begin(const words &of) {
        folugben::step it = agent(of).begin();
        const std::uint32_t start = it.number();
        steps_.insert_or_assign(number(of[0]), std::move(it));
        return std::to_string(start);
    }
    // A call of the step with a move that is gathered.
    folugben::instructions &move(const std::string &of) { return moves_[number(of)]; }
    std::string pop_move(const words &of) {
        moves_.insert_or_assign(number(of[1]), step(of).pop_move());
        return "null";
    }
    std::string gather(const words &of) {
        for (const std::string &it : split(of[1])) {
            if (it.empty()) continue;
            const words its = split(it);
            const folugben::location at = folugben::location::of_json(its[1]);
            const bool is_written = its[2].starts_with('{');
            const folugben::element element = is_written ? folugben::element() : folugben::detail::reader(its[2]).element();
            const folugben::operand what = is_written ? folugben::operand::of_json(kind(its[2]), its[2]) : folugben::operand(element);
            folugben::detail::done(move(of[0]).try_instruct(verb(text(its[0])), at, what, its.size() > 3 ? number(its[3]) : 0));
        }
        return "null";
    }
    static constexpr std::array<const char *, 6> verbs = {"put", "add", "remove", "bagadd", "bagremove", "inc"};
    static asm_verb verb(const std::string &word) {
        return static_cast<asm_verb>(std::find(verbs.begin(), verbs.end(), word) - verbs.begin());
    }
    std::string instructions(const words &of) {
        std::string all;
        for (const folugben::instruction &it : move(of[0])) {
            all.append(all.empty() ? "[[\"" : ",[\"").append(verbs.at(it.verb)).append("\",");
            all.append(folugben::detail::json_of(it.name, it.args)).append(",").append(json(it.value));
            all.append(it.amount ? "," + std::to_string(it.amount) : "").append("]");
        }
        return all.empty() ? "[]" : all + "]";
    }
    static asm_kind kind(const std::string &json) {
        return json.starts_with("{\"list\"") ? ASM_KIND_LIST : json.starts_with("{\"set\"") ? ASM_KIND_SET : ASM_KIND_BAG;
    }
    static std::string json(const folugben::value &it) {
        std::string out;
        if (it.kind() == ASM_KIND_SET) return folugben::detail::json_of(it.as_set());
        if (it.kind() == ASM_KIND_BAG) return folugben::detail::json_of(it.as_bag());
        it.as_element().write_json(out);
        return out;
    }
    std::string peek_at(const words &of) {
        std::uint32_t at = 0;
        folugben::value it;
        folugben::detail::done(agent(of).try_peek(folugben::location::of_json(of[1]), at, it));
        return "{\"number\":" + std::to_string(at) + ",\"values\":[" + json(it) + "]}";
    }
    std::string commit(const words &of) {
        const folugben::outcome it = step(of).try_commit();
        if (it.code == code::stale || it.code == code::clash) return agent(of).answer();
        folugben::detail::done(it.code);
        return member("fired", std::to_string(it.number));
    }
    std::string read(const words &of) {
        std::string reading = agent(of).read_json(of[1]);
        ++read_[number(of[0])];
        return reading;
    }
    // How many reads of a journal were recorded by commits: those that no agent made by itself.
    std::uint64_t recorded(const std::string &journal) const {
        std::uint64_t all = 0;
        for (std::size_t at = 0; (at = journal.find(",\"call\":{\"read\":", at)) != std::string::npos; ++at) ++all;
        for (const auto &[number, agent] : agents_)
            if (!agent.get()->slot.full && read_.contains(number)) all -= read_.at(number);
        return all;
    }
    static std::string values(const std::string &reading) {
        const auto at = reading.find("\"values\":") + 9;
        return reading.substr(at, reading.size() - at - 1);
    }
    // The events of a journal, behind its header.
    static std::string lines(const std::string &journal) {
        std::string all;
        for (std::size_t at = journal.find('\n') + 1, end; (end = journal.find('\n', at)) != std::string::npos; at = end + 1)
            all.append(all.empty() ? "[" : ",").append(journal, at, end - at);
        return all.empty() ? "[]" : all + "]";
    }
    std::string audit(const std::string &run) {
        folugben::auditor auditor;
        auditor.feed(run);
        const asm_audit_numbers counts = auditor.end();
        return list({counts.calls, counts.moves, counts.parts});
    }
    std::string check(const std::string &journal, std::uint64_t recorded) {
        const folugben::legality verdict = folugben::check(journal);
        if (verdict.is_legal) return list({verdict.calls - recorded, verdict.moves});
        refused_ = {"ILLEGAL", "", list({verdict.calls})};
        return "";
    }
    std::string scan(const words &of) {
        std::uint32_t at = 0;
        std::string answer = agent(of).scan_json(text(of[1]), at);
        return at == number(of[2]) ? answer : "at " + std::to_string(at);
    }
    // Counts the element of a word. An operand has no copy of a text.
    std::uint32_t count(const words &of) {
        const std::string &word = of[2], own = word[0] == '"' ? text(word) : "";
        const auto at = folugben::location::of_json(of[1]);
        if (word[0] == '"') return step(of).count_of(at, own);
        if (word[0] == '{') return step(of).count_of(at, folugben::operand::of_json(ASM_KIND_LIST, word));
        if (word == "null") return step(of).count_of(at, nullptr);
        if (word == "true" || word == "false") return step(of).count_of(at, word == "true");
        return step(of).count_of(at, std::stoll(word));
    }
    static asm_form form(const std::string &name) {
        static const std::map<std::string, asm_form> forms = {{"LOCATIONS", ASM_FORM_LOCATIONS}, {"MOVE", ASM_FORM_MOVE},
            {"STATE", ASM_FORM_STATE}, {"EVENT", ASM_FORM_EVENT}, {"SCRIPT", ASM_FORM_SCRIPT}};
        return forms.at(name);
    }
    static std::string json(const std::string &of) {
        std::string out;
        folugben::element(of).write_json(out);
        return out;
    }

    std::optional<folugben::storage> storage_;
    std::map<std::uint32_t, folugben::agent> agents_;
    std::map<std::uint32_t, folugben::step> steps_;
    std::map<std::uint32_t, folugben::instructions> moves_; // those that are gathered, or were popped
    std::map<std::uint32_t, std::uint64_t> read_; // how many reads each agent made by itself
    bool is_recording_;
    std::string journal_;
    refusal refused_;
    const std::map<std::string, std::function<std::string(const words &)>> calls_ = {
        {"case", [this](const words &) { return begin_case(), ""; }},
        {"open", [this](const words &of) { return open(folugben::storage(of[0], number(of[1]))); }},
        {"next", [this](const words &of) { return open(storage_.value().next(number(of[0]))); }},
        {"go_on", [this](const words &of) { return open(agent(of).go_on(number(of[1]))); }},
        {"agent", [this](const words &of) { return make(of, storage_.value().make_agent(number(of[0]))); }},
        {"take", [this](const words &of) { return make(of, storage_.value().take(number(of[0]))); }},
        {"give", [this](const words &of) { { folugben::agent moved = std::move(agent(of)); } return "null"; }},
        {"abandon", [this](const words &of) { return agent(of).abandon(), "null"; }},
        {"learn", [this](const words &of) { return agent(of).learn(agents_.at(number(of[1]))), "null"; }},
        {"read", [this](const words &of) { return read(of); }},
        {"peek", [this](const words &of) { return agent(of).peek_json(of[1]); }},
        {"peek_at", [this](const words &of) { return peek_at(of); }},
        {"answer", [this](const words &of) { return agent(of).answer(); }},
        {"fire", [this](const words &of) {
             return member("fired", std::to_string(agent(of).fire_json("{\"fire\":" + of[1] + ",\"reads\":" + of[2] + "}", of[3])));
         }},
        {"follow", [this](const words &of) { return std::to_string(agent(of).follow()); }},
        {"stands", [this](const words &of) { return agent(of).stands_json(of[1]), "null"; }},
        {"state", [this](const words &of) { return agent(of).state_json(); }},
        {"scan", [this](const words &of) { return scan(of); }},
        {"seen", [this](const words &of) { return std::to_string(agent(of).seen()); }},
        {"won", [this](const words &of) { return std::to_string(agent(of).won()); }},
        {"misses", [this](const words &of) { return std::to_string(agent(of).misses()); }},
        {"moves", [this](const words &) { return std::to_string(storage_.value().moves()); }},
        {"begin", [this](const words &of) { return begin(of); }},
        {"end", [this](const words &of) { { folugben::step moved = std::move(step(of)); } return ""; }},
        {"get", [this](const words &of) { return values(step(of).get_json(of[1])); }},
        {"see", [this](const words &of) { return values(step(of).see_json(of[1])); }},
        {"get_at", [this](const words &of) { return json(step(of).get(folugben::location::of_json(of[1]))); }},
        {"push_move", [this](const words &of) { return step(of).push(move(of[1])), "null"; }},
        {"extend_move", [this](const words &of) { return step(of).extend(move(of[1])), "null"; }},
        {"pop_move", [this](const words &of) { return pop_move(of); }},
        {"gather", [this](const words &of) { return gather(of); }},
        {"instructions", [this](const words &of) { return instructions(of); }},
        {"unite", [this](const words &of) { return move(of[0]).unite(move(of[1])), "null"; }},
        {"drop", [this](const words &of) { return moves_.erase(number(of[0])), "null"; }},
        {"get_all", [this](const words &of) { return step(of).scan_json(text(of[1])); }},
        {"has", [this](const words &of) { return count(of) > 0 ? "true" : "false"; }},
        {"count_of", [this](const words &of) { return std::to_string(count(of)); }},
        {"size", [this](const words &of) { return std::to_string(step(of).size(folugben::location::of_json(of[1]))); }},
        {"any", [this](const words &of) { return step(of).any(text(of[1])) ? "true" : "false"; }},
        {"count", [this](const words &of) { return std::to_string(step(of).count(text(of[1]))); }},
        {"push", [this](const words &of) { return step(of).push_json(of[1]), "null"; }},
        {"extend", [this](const words &of) { return step(of).extend_json(of[1]), "null"; }},
        {"pop", [this](const words &of) { return step(of).pop(), "null"; }},
        {"depth", [this](const words &of) { return std::to_string(step(of).depth()); }},
        {"step_stands", [this](const words &of) { return step(of).stands(), "null"; }},
        {"offer", [this](const words &of) { return step(of).offer_json(); }},
        {"commit", [this](const words &of) { return commit(of); }},
        {"close", [this](const words &) { return journal_ = storage_.value().close(), "null"; }},
        {"journal", [this](const words &) { return check(journal_, recorded(journal_)); }},
        {"lines", [this](const words &) { return lines(journal_); }},
        {"recorded", [this](const words &) { return lines(journal_); }},
        {"left", [this](const words &) { return folugben::replay_json(journal_); }},
        {"length", [this](const words &of) { return std::to_string(move(of[0]).size()); }},
        {"check", [this](const words &of) { return check(text(of[0]), 0); }},
        {"replay", [](const words &of) { return folugben::replay_json(text(of[0])); }},
        {"audit", [this](const words &of) { return audit(text(of[0])); }},
        {"aggregate", [](const words &of) { return folugben::aggregate_json(of[0], of[1]); }},
        {"compose", [](const words &of) { return folugben::compose_json(of[0], of[1]); }},
        {"explain", [](const words &of) { return json(folugben::explain(form(text(of[0])), text(of[1]))); }},
    };
};

// Whether an error is the one that is wanted, as far as that says.
bool is_refused_as(const refusal &actual, const std::string &wanted) {
    for (const auto &[key, is] : {std::pair{"error", "\"" + actual.name + "\""}, {"numbers", actual.numbers}}) {
        const std::string begin = std::string("\"") + key + "\":";
        const auto at = wanted.find(begin);
        if (at != std::string::npos && (is.empty() || !wanted.substr(at + begin.size()).starts_with(is))) return false;
    }
    const auto at = wanted.find("\"said\":");
    return at == std::string::npos || folugben::detail::reader(wanted.substr(at + 7)).text() == actual.said;
}

// How many calls of the table were answered as they should be.
int replay(const std::string &path, bool is_recording) {
    std::ifstream file(path);
    replayer calls(is_recording);
    std::string line;
    int count = 0;
    std::uint32_t times = 1;
    for (int number_of_line = 1; std::getline(file, line); ++number_of_line) {
        words of = split(expanded(line));
        std::string call = text(of.front()), wanted;
        of.erase(of.begin());
        if (call == "text") {
            // The words are texts that may be no JSON.
            for (std::string &it : of) it = it.starts_with('"') ? text(it) : it;
            call = of.front();
            of.erase(of.begin());
        }
        if (call == "repeat") times = number(of.front());
        // The journal of agents that record has their reads too.
        if (call == "repeat" || call == (is_recording ? "lines" : "recorded")) continue;
        if (call != "case" && call != "end") {
            wanted = of.back();
            of.pop_back();
        }
        for (; times > 0; --times) {
            const std::string answer = calls.answer(call, of);
            const bool is_error = wanted.starts_with("{\"error\":");
            if (is_error ? answer.empty() && is_refused_as(calls.refused(), wanted) : answer == wanted) continue;
            std::printf("%s:%d: %.300s\n  answered %s, %s %s %s\n", path.c_str(), number_of_line, line.c_str(), answer.c_str(),
                        calls.refused().name.c_str(), calls.refused().said.c_str(), calls.refused().numbers.c_str());
            return -1;
        }
        times = 1;
        count += call != "case";
    }
    return count;
}

} // namespace

int main(int count, char **of) {
    const std::string folder = count > 1 ? of[1] : "";
    int all = 0;
    for (const char *name : {"moves", "calls", "polls", "steps", "gathered", "commits", "journals"}) {
        for (const bool is_recording : {false, true}) {
            const int calls = replay(folder + "/" + name + ".jsonl", is_recording);
            if (calls < 20) {
                std::printf("%s: %d calls%s\n", name, calls, is_recording ? ", recorded" : "");
                return 1;
            }
            all += calls;
        }
    }
    std::printf("%d calls answered as in the table\n", all);
    return 0;
}
