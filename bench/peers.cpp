// fib without a cutoff, by tasks of oneTBB or of OpenMP: peers METHOD THREADS N. Prints fib N and the microseconds that it took, the start of threads left out.
#include <chrono>
#include <cstdint>
#include <cstdio>
#include <cstdlib>
#include <cstring>
#include <oneapi/tbb/global_control.h>
#include <oneapi/tbb/task_arena.h>
#include <oneapi/tbb/task_group.h>

static std::int64_t by_tbb(std::int64_t n)
{
    if (n < 2)
        return n;
    std::int64_t left;
    oneapi::tbb::task_group region;
    region.run([&left, n] { left = by_tbb(n - 1); });
    std::int64_t right = by_tbb(n - 2);
    region.wait();
    return left + right;
}

static std::int64_t by_openmp(std::int64_t n)
{
    if (n < 2)
        return n;
    std::int64_t left;
#pragma omp task shared(left)
    left = by_openmp(n - 1);
    std::int64_t right = by_openmp(n - 2);
#pragma omp taskwait
    return left + right;
}

static std::int64_t openmp_run(int threads, std::int64_t n)
{
    std::int64_t result = 0;
#pragma omp parallel num_threads(threads)
#pragma omp single
    result = by_openmp(n);
    return result;
}

static std::int64_t once(bool is_tbb, int threads, std::int64_t n)
{
    if (!is_tbb)
        return openmp_run(threads, n);
    std::int64_t result = 0;
    oneapi::tbb::task_arena arena(threads);
    arena.execute([&result, n] { result = by_tbb(n); });
    return result;
}

int main(int count, char **words)
{
    if (count != 4)
        return 2;
    const bool is_tbb = std::strcmp(words[1], "tbb") == 0;
    const int threads = std::atoi(words[2]);
    const std::int64_t n = std::atoll(words[3]);
    oneapi::tbb::global_control most(oneapi::tbb::global_control::max_allowed_parallelism, threads);
    once(is_tbb, threads, 12);
    const auto start = std::chrono::steady_clock::now();
    const std::int64_t result = once(is_tbb, threads, n);
    const auto took = std::chrono::steady_clock::now() - start;
    std::printf("%lld %lld\n", (long long)result, (long long)std::chrono::duration_cast<std::chrono::microseconds>(took).count());
    return 0;
}
