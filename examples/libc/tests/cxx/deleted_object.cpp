// A virtual call of an object that was deleted.
// ends: 129
// tells: Use After Free
#include <memory>
#include <string>

struct Shape {
    virtual ~Shape() = default;
    virtual int area() const = 0;
};

struct Square : Shape {
    explicit Square(int side) : side(side) {}
    int area() const override { return side * side; }
    int side;
    std::string name = "a name that is too long for the object itself";
};

int main()
{
    std::unique_ptr<Shape> owner = std::make_unique<Square>(7);
    const Shape *kept = owner.get();
    owner.reset();
    return kept->area();
}
