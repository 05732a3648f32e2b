// Ways in place of a call, each with its name and with how the disagreement begins that must notice it.
#pragma once
#include <initializer_list>
#include <string>
#include <utility>
#include <vector>

template <class Way>
struct Named {
    std::string name, part;
    Way way;
};

template <class Way>
using NamedList = std::vector<Named<Way>>;

template <class Way>
NamedList<Way> named_ways(const std::string& part, std::initializer_list<std::pair<const char*, Way>> ways) {
    NamedList<Way> list;
    for (const auto& [name, way] : ways) list.push_back({name, part, way});
    return list;
}

template <class Way>
void append(NamedList<Way>& list, const NamedList<Way>& more) {
    list.insert(list.end(), more.begin(), more.end());
}
