// LEMON's preflow on the meshes of the routes part: each station is an arc of one unit, and the first phase of
// the preflow gives the count. Reads the meshes from standard input; prints for each its name, the sum of the
// counts and the best nanoseconds for its pairs. The network is built once a mesh; only the flow is timed.

#include <lemon/preflow.h>
#include <lemon/smart_graph.h>

#include <chrono>
#include <cstdio>
#include <cstdlib>
#include <utility>
#include <vector>

using Graph = lemon::SmartDigraph;

int main(int argc, char **argv) {
    int times = argc > 1 ? atoi(argv[1]) : 3;
    int n, links, pairs;
    char name[200];
    while (scanf(" mesh %d %d %d %199s", &n, &links, &pairs, name) == 4) {
        Graph graph;
        Graph::ArcMap<int> room(graph);
        std::vector<Graph::Node> in(n), out(n);
        for (int i = 0; i < n; i++) {
            in[i] = graph.addNode();
            out[i] = graph.addNode();
            room[graph.addArc(in[i], out[i])] = 1;
        }
        for (int i = 0; i < links; i++) {
            int a, b;
            if (scanf("%d %d", &a, &b) != 2) return 2;
            room[graph.addArc(out[a], in[b])] = 1;
            room[graph.addArc(out[b], in[a])] = 1;
        }
        std::vector<std::pair<int, int>> asked(pairs);
        for (auto &pair : asked)
            if (scanf("%d %d", &pair.first, &pair.second) != 2) return 2;
        long sum = 0;
        double best = 1e18;
        for (int turn = 0; turn < times; turn++) {
            auto start = std::chrono::steady_clock::now();
            sum = 0;
            for (auto &pair : asked) {
                lemon::Preflow<Graph, Graph::ArcMap<int>> preflow(graph, room, out[pair.first], in[pair.second]);
                preflow.runMinCut();
                sum += preflow.flowValue();
            }
            double took = std::chrono::duration<double, std::nano>(std::chrono::steady_clock::now() - start).count();
            if (took < best) best = took;
        }
        printf("%s %ld %.0f\n", name, sum, best);
    }
    return 0;
}
