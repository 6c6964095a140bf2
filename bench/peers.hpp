// What a user would pick instead: the compatibility graph built and matched by LEMON and by Boost.Graph.
#pragma once
#include "lists.hpp"
#include <boost/graph/adjacency_list.hpp>
#include <boost/graph/max_cardinality_matching.hpp>
#include <lemon/matching.h>
#include <lemon/smart_graph.h>

// Two requests are compatible if their chords do not cross.
struct Chord {
    int a, b;
};

inline std::vector<Chord> chords(const Ends& ends) {
    std::vector<Chord> all(ends.size() / 2);
    for (size_t i = 0; i < all.size(); i++) {
        int x = ends[2 * i], y = ends[2 * i + 1];
        all[i] = {std::min(x, y), std::max(x, y)};
    }
    return all;
}

inline bool compatible(const Chord& r, const Chord& s) {
    return !((r.a < s.a && s.a < r.b && r.b < s.b) || (s.a < r.a && r.a < s.b && s.b < r.b));
}

inline int lemon_match(const Ends& ends) {
    std::vector<Chord> all = chords(ends);
    int m = int(all.size());
    lemon::SmartGraph graph;
    graph.reserveNode(m);
    std::vector<lemon::SmartGraph::Node> node(m);
    for (int i = 0; i < m; i++) node[i] = graph.addNode();
    for (int i = 0; i < m; i++)
        for (int j = i + 1; j < m; j++)
            if (compatible(all[i], all[j])) graph.addEdge(node[i], node[j]);
    lemon::MaxMatching<lemon::SmartGraph> matching(graph);
    matching.run();
    return matching.matchingSize();
}

inline int boost_match(const Ends& ends) {
    using Graph = boost::adjacency_list<boost::vecS, boost::vecS, boost::undirectedS>;
    std::vector<Chord> all = chords(ends);
    int m = int(all.size());
    Graph graph(m);
    for (int i = 0; i < m; i++)
        for (int j = i + 1; j < m; j++)
            if (compatible(all[i], all[j])) boost::add_edge(i, j, graph);
    std::vector<boost::graph_traits<Graph>::vertex_descriptor> mate(m);
    boost::edmonds_maximum_cardinality_matching(graph, &mate[0]);
    return int(boost::matching_size(graph, &mate[0]));
}
