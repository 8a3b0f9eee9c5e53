// Pushes of one instruction, whose move is made as it is pushed.
#include "wanted.hpp"

#include <cstdio>
#include <string>

namespace {

// An instruction is pushed as a move of it alone is, and refused for the same reason.
void one_instruction_is_pushed() {
    folugben::storage storage({{"bag", {}, folugben::bag{{"e", 2}}}, {"count", {}, 7}, {"s", {}, folugben::set{1}}}, 10);
    folugben::agent agent = storage.make_agent(0);
    const folugben::location bag("bag"), count("count"), s("s"), t("t");
    folugben::step step = agent.begin();
    step.push(ASM_PUT, count, step.get(count).number() + 1);
    step.push(ASM_INC, count, -3);
    step.push(ASM_ADD, s, "two");
    step.push(ASM_REMOVE, s, 1);
    step.push(ASM_BAGADD, bag, folugben::list{1}, 4294967295);
    step.push(ASM_BAGREMOVE, bag, "e", 1);
    step.push(ASM_PUT, t, folugben::set{1, "a"});
    WANTED(step.depth() == 7 && step.get(count).number() == 5);
    WANTED(step.get_json(R"([["bag"],["s"],["t"]])") ==
           R"({"number":0,"values":[{"bag":[["e",1],[{"list":[1]},4294967295]]},{"set":["two"]},{"set":[1,"a"]}]})");
    std::string text;
    WANTED(step.try_push(ASM_BAGREMOVE, bag, "e", 2, text) == code::clash && text == R"({"clash":[["bag"],"Short"]})");
    WANTED(step.try_push(ASM_ADD, s, folugben::set{}, 0, text) == code::operand && text.empty());
    WANTED(REFUSED(folugben::clash, step.push(ASM_INC, t, 1)).text() == R"({"clash":[["t"],"Kind"]})");
    folugben::instructions move;
    const folugben::error range = REFUSED(folugben::error, step.push(ASM_BAGADD, bag, "e"));
    WANTED(range.code() == code::operand && range.text() == REFUSED(folugben::error, move.bag_add(bag, "e", 0)).text());
    const folugben::error shape = REFUSED(folugben::error, step.push(ASM_PUT, t, "\xff"));
    WANTED(shape.code() == code::shape && shape.text() == REFUSED(folugben::error, move.put(t, "\xff")).text());
    for (int i = 7; i < 64; ++i) step.push(ASM_INC, count, 1);
    WANTED(REFUSED(folugben::error, step.push(ASM_INC, count, 1)).code() == code::deep && step.depth() == 64);
    WANTED(step.commit() == 1);
    WANTED(step.try_push(ASM_INC, count, 1, 0, text) == code::empty);
}

} // namespace

int main() {
    one_instruction_is_pushed();
    std::puts("passed");
}
