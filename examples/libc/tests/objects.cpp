// C++ without exceptions: new and delete, virtual calls, constructors of static objects.
#include <stdio.h>
#include <stdlib.h>

struct Shape {
    virtual ~Shape() { puts("gone"); }
    virtual int area() const = 0;
};

struct Square : Shape {
    explicit Square(int side) : side(side) {}
    int area() const override { return side * side; }
    int side;
};

struct Counter {
    Counter() : count(10) { puts("made"); }
    ~Counter() { printf("counted %d\n", count); }
    int count;
};

static Counter counter;

static Counter &local()
{
    static Counter here;
    return here;
}

int main()
{
    Shape *shape = new Square(7);
    int *numbers = new int[100];
    for (int i = 0; i < 100; i++)
        numbers[i] = i * shape->area();
    counter.count += numbers[99];
    local().count++;
    delete[] numbers;
    delete shape;
    return 0;
}
