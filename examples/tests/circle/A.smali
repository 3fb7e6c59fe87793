# Below a circle, but no part of it.
.class public interface abstract La/A;
.super Ljava/lang/Object;
.implements La/J;
